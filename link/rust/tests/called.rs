//! Every public function of the crate is called by a test.

#[macro_use]
mod common;

use std::fs;
use std::path::Path;

/// The text of all Rust files of a folder, and of the folders in it.
fn text_of(folder: &Path) -> String {
    let mut text = String::new();
    for entry in fs::read_dir(folder).expect("a folder of the crate") {
        let path = entry.expect("a file of the crate").path();
        if path.is_dir() {
            text += &text_of(&path);
        } else {
            text += &fs::read_to_string(&path).expect("a file of Rust");
        }
    }
    text
}

/// The name stands before a parenthesis, and is no end of a longer one.
fn calls(text: &str, name: &str) -> bool {
    let call = format!("{name}(");
    let mut places = text.match_indices(&call).map(|(at, _)| &text[..at]);
    places.any(|before| !before.ends_with(|c: char| c.is_alphanumeric() || c == '_'))
}

#[test]
fn every_public_function() {
    let home = Path::new(env!("CARGO_MANIFEST_DIR"));
    let tests = text_of(&home.join("tests"));
    let source = text_of(&home.join("src")).replace("pub const fn ", "pub fn ");
    // raw.rs declares the library's own functions, which are not public
    let ours = source.split("pub fn ").skip(1);
    let names = ours.filter_map(|rest| rest.split(['(', '<']).next());
    let names: Vec<&str> = names.filter(|name| !name.starts_with("sbp_")).collect();
    same!("functions found", names.len() > 40, true);
    let uncalled: Vec<&str> = names.into_iter().filter(|n| !calls(&tests, n)).collect();
    same!("called by no test", uncalled, [""; 0]);
}

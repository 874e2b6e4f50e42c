//! Holds a listing command against the twin's own listing, on generated
//! captures; the last line is 'N passed, M failed'.
//!
//! usage: twindiff SEED COUNT COMMAND [WORD..]

use std::env;
use std::io::Write;
use std::process::{Command, ExitCode, Stdio};
use std::thread;

use twin::gen::capture;
use twin::listing::listing;

/// What the command prints for a capture on its standard input.
fn printed(command: &[String], capture: &[u8]) -> Vec<u8> {
    let mut child = Command::new(&command[0])
        .args(&command[1..])
        .stdin(Stdio::piped())
        .stdout(Stdio::piped())
        .spawn()
        .expect("the command starts");
    let mut input = child.stdin.take().expect("it has an input");
    // It may stop reading once it knows that there is too much.
    let _ = input.write_all(capture);
    drop(input);
    child.wait_with_output().expect("it ends").stdout
}

/// Whether the two agree; a difference is shown with the capture in hex.
fn agrees(command: &[String], seed: u64) -> bool {
    let capture = capture(seed);
    let (ours, theirs) = (listing(&capture), printed(command, &capture));
    let same = ours.as_bytes() == theirs.as_slice();
    if !same {
        let hex: String = capture.iter().map(|b| format!("{b:02x}")).collect();
        println!("seed {seed}: capture {hex}");
        println!("twin:\n{ours}");
        println!("command:\n{}", String::from_utf8_lossy(&theirs));
    }
    same
}

fn main() -> ExitCode {
    let words: Vec<String> = env::args().skip(1).collect();
    let (Some(seed), Some(count)) = (number(&words, 0), number(&words, 1)) else {
        eprintln!("usage: twindiff SEED COUNT COMMAND [WORD..]");
        return ExitCode::from(2);
    };
    let command = words[2..].to_vec();
    let half = move |from: u64| {
        let command = command.clone();
        thread::spawn(move || {
            let seeds = (seed + from..seed + count).step_by(2);
            seeds.filter(|&s| !agrees(&command, s)).count() as u64
        })
    };
    let halves = [half(0), half(1)];
    let failed: u64 = halves.map(|h| h.join().expect("it ends")).iter().sum();
    println!("{} passed, {failed} failed", count - failed);
    ExitCode::from(u8::from(failed > 0))
}

fn number(words: &[String], i: usize) -> Option<u64> {
    (words.len() > 2).then(|| words[i].parse().ok()).flatten()
}

//! Holds the exported functions against the twin: asks tests/driver.c, or the
//! Rust driver, and compares answers and lent memory. Prints how often each
//! answer came; the last line is 'N passed, M failed'.
//!
//! A request is a letter and its arguments, little-endian; what is lent to be
//! read comes as a count and its contents, what is lent to be written as a
//! count, and it is filled with 0xEE first (an index to be extended and its
//! list come with their contents). Who writes comes as the recorder's own number
//! in 2 bytes, then the sender in 4 (above 65535 none is given). A reply is the
//! answer, a byte that is 1 where nothing else was touched, and the FNV-1a hash
//! of all bytes of each buffer lent to be written; where nothing is lent, the
//! answer alone.
//!
//! usage: twincalls SEED COUNT c|rust COMMAND [WORD..]

mod asked;
mod captures;
mod collators;
mod feeding;
mod indexes;
mod meanings;
mod reading;
mod senders;
mod states;
mod values;
mod wanted;
mod writing;

use std::env;
use std::process::ExitCode;

use twin::gen::{capture, Rng};
use twin::listing::MAX_INPUT;

use asked::{Asked, Side};

/// Large captures are few, since each call sends the whole of it: some, and
/// those that are too long to list.
const LARGE_EVERY: u64 = 50;
const SMALL: usize = 2000;

fn main() -> ExitCode {
    let words: Vec<String> = env::args().skip(1).collect();
    let Some((seed, count, side)) = told(&words) else {
        eprintln!("usage: twincalls SEED COUNT c|rust COMMAND [WORD..]");
        return ExitCode::from(2);
    };
    let mut asked = Asked::start(side, &words[3..]);
    let mut rng = Rng::new(seed);
    meanings::ask_once(&mut asked, &mut rng);
    let mut at = seed;
    while asked.calls < count {
        let mut bytes = capture(at);
        if at % LARGE_EVERY != 0 && bytes.len() <= MAX_INPUT {
            bytes.truncate(SMALL);
        }
        at += 1;
        captures::ask(&mut asked, &mut rng, &bytes);
        reading::ask(&mut asked, &mut rng);
        writing::ask(&mut asked, &mut rng);
        meanings::ask(&mut asked, &mut rng);
        collators::ask(&mut asked, &mut rng);
        indexes::ask(&mut asked, &mut rng, &bytes);
    }
    wanted::report(&asked);
    let wrong = asked.failed;
    let passed = asked.calls - wrong;
    let missing = wanted::missing(&asked);
    let failed = wrong + missing + u64::from(!asked.ended());
    println!("{passed} passed, {failed} failed");
    ExitCode::from(u8::from(failed > 0))
}

/// Seed, count and side, where there is a command too.
fn told(words: &[String]) -> Option<(u64, u64, Side)> {
    let [seed, count, side, _, ..] = words else {
        return None;
    };
    let side = match side.as_str() {
        "c" => Side::C,
        "rust" => Side::Rust,
        _ => return None,
    };
    Some((seed.parse().ok()?, count.parse().ok()?, side))
}

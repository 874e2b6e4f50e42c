//! How far the reading of a long capture is, on standard error where that is a terminal.

use std::io::{self, IsTerminal, Write};
use std::time::{Duration, Instant};

/// A capture below this length is read before anybody wonders.
const LONG: u64 = 4 << 20;
const PAUSE: Duration = Duration::from_millis(100);

pub struct Progress {
    on_terminal: bool,
    /// The capture's length, or 0 where it is not known.
    length: u64,
    drawn: bool,
    last: Option<Instant>,
}

impl Progress {
    pub fn new() -> Progress {
        Progress {
            on_terminal: io::stderr().is_terminal(),
            length: 0,
            drawn: false,
            last: None,
        }
    }

    pub fn begin(&mut self, length: u64) {
        self.length = length;
        self.last = None;
    }

    /// At most ten times a second.
    pub fn draw(&mut self, read: u64) {
        let long = self.length.max(read) >= LONG;
        let soon = self.last.is_some_and(|last| last.elapsed() < PAUSE);
        if self.on_terminal && long && !soon {
            say(&format!("\r{}\x1b[K", words(read, self.length)));
            self.drawn = true;
            self.last = Some(Instant::now());
        }
    }

    pub fn wipe(&mut self) {
        if self.drawn {
            say("\r\x1b[K");
            self.drawn = false;
        }
    }
}

/// A terminal that takes nothing more is no reason to stop.
fn say(text: &str) {
    let _ = io::stderr().write_all(text.as_bytes());
}

fn words(read: u64, length: u64) -> String {
    if length == 0 {
        return format!("{} read", mebibytes(read));
    }
    // a file may grow while it is read
    let percent = (u128::from(read) * 100 / u128::from(length)).min(100);
    format!(
        "{} of {} read, {percent}%",
        mebibytes(read),
        mebibytes(length)
    )
}

fn mebibytes(bytes: u64) -> String {
    format!("{:.1} MiB", bytes as f64 / f64::from(1 << 20))
}

#[cfg(test)]
mod tests {
    use super::*;

    #[test]
    fn percent_where_the_length_is_known() {
        assert_eq!(words(3 << 20, 12 << 20), "3.0 MiB of 12.0 MiB read, 25%");
        assert_eq!(words(5 << 19, 0), "2.5 MiB read");
    }

    #[test]
    fn never_over_a_hundred_percent() {
        assert_eq!(words(9 << 20, 8 << 20), "9.0 MiB of 8.0 MiB read, 100%");
        assert_eq!(words(u64::MAX, u64::MAX).split(", ").nth(1), Some("100%"));
    }
}

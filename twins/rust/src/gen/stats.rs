//! What the generated captures reach, so that a comparison over them means
//! something.

use super::{capture, RETIRED, TYPES};
use crate::epochs::{Collator, Epoch, Outcome};
use crate::frames::{closed, open, step, Frame, Step};
use crate::listing::{roster, MAX_INPUT};
use crate::messages::{answer, Log};
use crate::numbers::{No, COUNTER_AGAIN, LENGTH_WRONG, TYPE_UNKNOWN};
use std::collections::BTreeMap;
use std::fmt::Write;

/// What the captures of a comparison have to reach, beside what `of_types` says.
const WANTED: [&str; 37] = [
    "step frame",
    "step junk",
    "step bad",
    "step short, 6 needed",
    "step short, N + 8 needed",
    "open reading finished",
    "open reading stopped",
    "answer 00",
    "answer 21",
    "answer 22",
    "answer 23",
    "type 0x0401 answer 23",
    "LOG without padding",
    "LOG with padding",
    "capture too long (11)",
    "capture of length 0",
    "capture of length 1",
    "capture of length 65535",
    "capture of length 65536",
    "roster of 0",
    "roster of 8",
    "feed taken",
    "feed epoch",
    "feed refused 22",
    "feed refused 43",
    "feed refused 44",
    "feed refused 45",
    "feed refused 46",
    "feed refused 47",
    "epoch in counter order",
    "epoch in another order",
    "epoch with a copy between",
    "epoch of one key again",
    "epoch of n 01",
    "epoch of n 15",
    "epoch of sender 0",
    "epoch of sender 65535",
];

fn of_type(msg_type: u16, no: No) -> String {
    format!("type {msg_type:#06x} answer {no:02}")
}

/// Every message read, and refused for its length; what is retired not known.
fn of_types() -> impl Iterator<Item = String> {
    let both = |t| [of_type(t, 0), of_type(t, LENGTH_WRONG)];
    let retired = RETIRED.map(|t| of_type(t, TYPE_UNKNOWN));
    TYPES.into_iter().flat_map(both).chain(retired)
}

#[derive(Default)]
pub struct Stats {
    /// Counts by name, in the order of the names.
    counts: BTreeMap<String, usize>,
}

impl Stats {
    fn add(&mut self, name: &str, more: usize) {
        *self.counts.entry(name.to_string()).or_default() += more;
    }

    /// Counts what one capture reaches.
    fn take(&mut self, bytes: &[u8]) {
        self.add("capture", 1);
        self.add("capture bytes", bytes.len());
        match bytes.len() {
            0 | 1 | 65535 | 65536 => self.add(&format!("capture of length {}", bytes.len()), 1),
            2..=4095 => self.add("capture of 2 to 4095", 1),
            4096..=65534 => self.add("capture of 4096 to 65534", 1),
            _ => {
                self.add("capture too long (11)", 1);
                return;
            }
        }
        assert!(bytes.len() <= MAX_INPUT);
        self.steps(bytes);
        self.payloads_and_epochs(bytes);
    }

    fn steps(&mut self, bytes: &[u8]) {
        let mut p = 0;
        loop {
            let (name, pass) = match step(bytes, p) {
                Step::Finished => break,
                Step::Junk => ("step junk", 1),
                Step::Short { needed: 6 } => ("step short, 6 needed", 1),
                Step::Short { .. } => ("step short, N + 8 needed", 1),
                Step::Bad => ("step bad", 1),
                Step::Frame(frame) => ("step frame", frame.size()),
            };
            self.add(name, 1);
            p += pass;
        }
        match open(bytes, 0).needed {
            None => self.add("open reading finished", 1),
            Some(_) => self.add("open reading stopped", 1),
        }
    }

    fn payloads_and_epochs(&mut self, bytes: &[u8]) {
        let reading = closed(bytes);
        let listed = roster(&reading.frames);
        self.add(&format!("roster of {}", listed.len()), 1);
        let mut collator = Collator::new(&listed).ok();
        let mut packets = Packets::default();
        for frame in &reading.frames {
            let no = answer(frame.msg_type, frame.payload);
            self.add(&format!("answer {no:02}"), 1);
            if TYPES.contains(&frame.msg_type) || RETIRED.contains(&frame.msg_type) {
                self.add(&of_type(frame.msg_type, no), 1);
            }
            if frame.msg_type == Log::TYPE {
                self.padding(frame.payload);
            }
            let Some(before) = collator.take() else {
                self.add("feed none: no collator", 1);
                continue;
            };
            let fed = before.feed(frame.msg_type, frame.sender, frame.payload);
            collator = Some(fed.collator);
            packets.note(frame, &fed.outcome);
            match fed.outcome {
                Outcome::Refused(no) => self.add(&format!("feed refused {no}"), 1),
                Outcome::Taken => self.add("feed taken", 1),
                Outcome::Epoch(epoch) => {
                    self.add("feed epoch", 1);
                    for name in packets.end(epoch) {
                        self.add(name, 1);
                    }
                    self.add(&format!("epoch of n {:02}", epoch.n), 1);
                    if epoch.sender == 0 || epoch.sender == 65535 {
                        self.add(&format!("epoch of sender {}", epoch.sender), 1);
                    }
                }
            }
        }
    }

    fn padding(&mut self, log: &[u8]) {
        match Log::read(log) {
            Ok(Log { padding: 0, .. }) => self.add("LOG without padding", 1),
            Ok(_) => self.add("LOG with padding", 1),
            Err(_) => {}
        }
    }

    /// What is wanted and was not reached.
    pub fn missing(&self) -> Vec<String> {
        let wanted = WANTED.iter().map(|name| name.to_string());
        let reached = |name: &String| self.counts.contains_key(name);
        wanted.chain(of_types()).filter(|n| !reached(n)).collect()
    }

    /// One line for each count.
    pub fn text(&self) -> String {
        let mut text = String::new();
        for (name, count) in &self.counts {
            // Writing to a String cannot fail.
            let _ = writeln!(text, "{count:>10}  {name}");
        }
        text
    }
}

/// How each sender's packets came.
#[derive(Default)]
struct Packets {
    /// The counters that were taken, and None for a copy that was refused.
    came: BTreeMap<u16, Vec<Option<u8>>>,
    last: BTreeMap<u16, Epoch>,
}

impl Packets {
    fn note(&mut self, frame: &Frame, outcome: &Outcome) {
        let counter = match outcome {
            Outcome::Refused(COUNTER_AGAIN) => None,
            Outcome::Refused(_) => return,
            _ => Some(frame.payload[6] & 15),
        };
        self.came.entry(frame.sender).or_default().push(counter);
    }

    /// The names under which an epoch counts that was just reported.
    fn end(&mut self, epoch: Epoch) -> Vec<&'static str> {
        let came = self.came.entry(epoch.sender).or_default();
        // Its packets are the last n that were taken.
        let taken = (0..came.len()).rev().filter(|&at| came[at].is_some());
        let first = taken.take(epoch.n.into()).last().unwrap_or(0);
        let packets = &came[first..];
        let mut names = Vec::new();
        if packets.iter().flatten().copied().eq(0..epoch.n) {
            names.push("epoch in counter order");
        } else {
            names.push("epoch in another order");
        }
        if packets.contains(&None) {
            names.push("epoch with a copy between");
        }
        let key = |e: Epoch| (e.tow, e.wn, e.n);
        let before = self.last.insert(epoch.sender, epoch);
        if epoch.n > 1 && before.map(key) == Some(key(epoch)) {
            names.push("epoch of one key again");
        }
        names
    }
}

/// The counts over `count` captures from `seed` on.
pub fn stats(seed: u64, count: u64) -> Stats {
    let mut found = Stats::default();
    for each in 0..count {
        found.take(&capture(seed.wrapping_add(each)));
    }
    found
}

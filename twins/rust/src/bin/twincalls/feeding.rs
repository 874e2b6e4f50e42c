//! Senders enlisted, and frames fed.

use twin::epochs::{Epoch, Outcome};
use twin::gen::{valid, Rng, TYPES};
use twin::messages::OBS_TYPE;
use twin::numbers::{No, BUFFER_TOO_SHORT};

use crate::asked::{lent, Asked, Question, Side};
use crate::states::{ask_state, After, Held, STATE};
use crate::values::{kind_near, payload};

const REPORT: usize = 11;

/// What a sender has yet to send of an epoch.
#[derive(Clone)]
struct Sending {
    tow: u32,
    wn: u16,
    n: usize,
    counters: Vec<usize>,
}

impl Sending {
    /// The next packet; after the last a new epoch begins.
    fn packet(&mut self, rng: &mut Rng) -> Vec<u8> {
        if self.counters.is_empty() {
            self.begin(rng);
        }
        let counter = self.counters.pop().unwrap_or(0);
        let mut bytes = valid(rng, OBS_TYPE);
        bytes[..4].copy_from_slice(&self.tow.to_le_bytes());
        bytes[4..6].copy_from_slice(&self.wn.to_le_bytes());
        bytes[6] = (self.n * 16 + counter) as u8;
        bytes
    }

    /// An epoch, often in another order than the counters': at times a packet
    /// is lost, comes again, after the report too, or has any counter.
    fn begin(&mut self, rng: &mut Rng) {
        self.tow = self.tow.wrapping_add(rng.below(2) as u32);
        self.wn = rng.pick(&[1900, 1900, 1900, 1901]);
        self.n = rng.pick(&[1, 2, 2, 3, 3, 4, 15, 0]);
        self.counters = (0..self.n).rev().collect();
        if rng.chance(1, 8) {
            self.counters.pop();
        }
        for (times, limit) in [(3, self.n), (3, self.n), (1, 16)] {
            if rng.chance(times, 8) {
                let at = rng.below(self.counters.len() + 1);
                self.counters.insert(at, rng.below(limit));
            }
        }
        if rng.chance(1, 2) {
            rng.shuffle(&mut self.counters);
        }
    }
}

pub fn feed_all(asked: &mut Asked, rng: &mut Rng, mut held: Held, senders: &[u16]) {
    // All of one time: collators keep them apart by sender.
    let none = Sending {
        tow: rng.word() as u32,
        wn: 0,
        n: 0,
        counters: Vec::new(),
    };
    let mut sending = vec![none; senders.len()];
    for _ in 0..40 {
        let who = rng.below(senders.len());
        let kind = match rng.below(16) {
            0 => rng.pick(&TYPES),
            1 => kind_near(rng, OBS_TYPE),
            _ => OBS_TYPE,
        };
        let bytes = if rng.chance(1, 12) {
            payload(rng, kind)
        } else {
            sending[who].packet(rng)
        };
        feed(asked, rng, &mut held, kind, senders[who], &bytes);
    }
    if rng.chance(1, 4) {
        feed_longest(asked, rng, &mut held, senders[0]);
    }
}

/// An epoch of 15 packets with nothing between them, so that it ends.
fn feed_longest(asked: &mut Asked, rng: &mut Rng, held: &mut Held, sender: u16) {
    let mut sending = Sending {
        tow: rng.word() as u32,
        wn: rng.word() as u16,
        n: 15,
        counters: (0..15).collect(),
    };
    rng.shuffle(&mut sending.counters);
    while !sending.counters.is_empty() {
        let bytes = sending.packet(rng);
        feed(asked, rng, held, OBS_TYPE, sender, &bytes);
    }
}

/// A frame, which is fed again where too little was lent for it.
fn feed(asked: &mut Asked, rng: &mut Rng, held: &mut Held, kind: u16, sender: u16, bytes: &[u8]) {
    // C enlists by a call of its own, which here is left out at times.
    if held.grows && (asked.side == Side::Rust || rng.chance(15, 16)) {
        ask_enlist(asked, rng, held, kind, sender);
    }
    while ask_feed(asked, rng, held, kind, sender, bytes) == BUFFER_TOO_SHORT {}
}

/// The state's room or, at times in C, less than a state.
fn part(asked: &Asked, rng: &mut Rng, held: &Held) -> usize {
    if asked.side == Side::C && rng.chance(1, 16) {
        rng.below(STATE)
    } else {
        held.room
    }
}

fn ask_enlist(asked: &mut Asked, rng: &mut Rng, held: &mut Held, kind: u16, sender: u16) {
    let part = part(asked, rng, held);
    if part < STATE {
        let question = enlisting(part, kind, sender);
        ask_state(asked, question, BUFFER_TOO_SHORT, part, None, After::Any);
        return;
    }
    let enlisted = held.collator.clone().enlist(kind, sender);
    let after = if enlisted == held.collator {
        After::Same(held.state)
    } else {
        After::Other(held.state)
    };
    held.collator = enlisted;
    if asked.side == Side::C {
        let question = enlisting(part, kind, sender);
        held.state = ask_state(asked, question, 0, part, None, after);
    }
}

fn enlisting(room: usize, kind: u16, sender: u16) -> Question {
    let question = Question::new("enlist", b'e').count(room);
    question.of(kind).put(&sender.to_le_bytes())
}

fn report_of(e: &Epoch) -> Vec<u8> {
    let mut row = Vec::new();
    row.extend(e.sender.to_le_bytes());
    row.extend(e.wn.to_le_bytes());
    row.extend(e.tow.to_le_bytes());
    row.push(e.n);
    row.extend((e.observations as u16).to_le_bytes());
    row
}

fn ask_feed(
    asked: &mut Asked,
    rng: &mut Rng,
    held: &mut Held,
    kind: u16,
    sender: u16,
    bytes: &[u8],
) -> No {
    let room = part(asked, rng, held);
    let report = match asked.side {
        Side::C if rng.chance(1, 9) => rng.below(REPORT),
        Side::C => REPORT + rng.below(3),
        Side::Rust => REPORT,
    };
    let name = if held.grows { "feed grown" } else { "feed" };
    let question = Question::new(name, b'f').count(room).count(report);
    let question = question.of(kind).put(&sender.to_le_bytes()).bytes(bytes);
    let mut front = Vec::new();
    let mut moved = false;
    let number = if room < STATE || report < REPORT {
        BUFFER_TOO_SHORT
    } else {
        let fed = held.collator.clone().feed(kind, sender, bytes);
        moved = fed.collator != held.collator;
        held.collator = fed.collator;
        match fed.outcome {
            Outcome::Refused(number) => number,
            Outcome::Taken => 0,
            Outcome::Epoch(e) => {
                front = report_of(&e);
                1
            }
        }
    };
    let after = match number {
        _ if room < STATE => After::Any,
        _ if moved => After::Other(held.state),
        // An epoch of one packet: what an idle place's bytes are is not known.
        1 => After::Any,
        _ => After::Same(held.state),
    };
    let report = lent(report, &front);
    let state = ask_state(asked, question, number, room, Some(&report), after);
    if room == held.room {
        held.state = state;
    }
    number
}

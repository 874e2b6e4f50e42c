//! CRC, answers, frames, counts and listings.

use twin::crc::{crc, frame_crc};
use twin::frames::{closed, step, Step};
use twin::gen::{Rng, TYPES};
use twin::listing::{listing, MAX_INPUT};
use twin::messages::answer;
use twin::numbers::{BUFFER_TOO_SHORT, INPUT_TOO_LONG};

use crate::asked::{as_bytes, lent, told, Asked, Question, Side, FILL};
use crate::values::{kind_near, payload, room};

const FOUND: usize = 53;
const TOTALS: usize = 32;

pub fn ask(asked: &mut Asked, rng: &mut Rng, bytes: &[u8]) {
    for _ in 0..6 {
        ask_crc(asked, rng);
        ask_frame_crc(asked, rng);
        ask_answer(asked, rng);
        ask_next(asked, rng, bytes);
    }
    ask_totals(asked, rng, bytes);
    ask_list(asked, rng, bytes);
}

fn ask_crc(asked: &mut Asked, rng: &mut Rng) {
    let any = rng.word() as u16;
    let start = rng.pick(&[0, 1, 65535, any]);
    let size = rng.below(300);
    let bytes = rng.bytes(size);
    let question = Question::new("crc", b'c')
        .put(&start.to_le_bytes())
        .bytes(&bytes);
    asked.call(question, 0, &told(&crc(start, &bytes).to_le_bytes(), &[]));
}

/// Any header goes, so at times it is not of six bytes.
fn ask_frame_crc(asked: &mut Asked, rng: &mut Rng) {
    let any = rng.below(9);
    let size = rng.pick(&[6, 6, 6, any]);
    let header = rng.bytes(size);
    let any = rng.below(256);
    let size = rng.pick(&[0, 255, any, any]);
    let payload = rng.bytes(size);
    let question = Question::new("frame_crc", b'C')
        .bytes(&header)
        .bytes(&payload);
    let sum = frame_crc(&header, &payload);
    asked.call(question, 0, &told(&sum.to_le_bytes(), &[]));
}

fn ask_answer(asked: &mut Asked, rng: &mut Rng) {
    let known = rng.pick(&TYPES);
    let bytes = payload(rng, known);
    let kind = kind_near(rng, known);
    let number = answer(kind, &bytes);
    let question = Question::new("answer", b'a').of(kind).bytes(&bytes);
    asked.call(question, number, &told(&[number], &[]));
}

/// The row of `sbp_next`, and its answer.
fn next_from(bytes: &[u8], start: usize, opened: bool) -> (u8, Vec<u8>) {
    let (mut at, mut junk, mut bad, mut short) = (start, 0_u64, 0_u64, 0_u64);
    let (number, next, needed, kind, sender, length) = loop {
        match step(bytes, at) {
            Step::Finished => break (1, at, 0, 0, 0, 0),
            Step::Short { needed } if opened => break (2, at, needed, 0, 0, 0),
            Step::Short { .. } => short += 1,
            Step::Junk => junk += 1,
            Step::Bad => bad += 1,
            Step::Frame(f) => {
                let length = f.payload.len() as u8;
                break (0, at + f.size(), 0, f.msg_type, f.sender, length);
            }
        }
        at += 1;
    };
    let mut row = as_bytes(&[at as u64, next as u64, needed as u64, junk, bad, short]);
    row.extend(kind.to_le_bytes());
    row.extend(sender.to_le_bytes());
    row.push(length);
    (number, row)
}

/// A row's room, which in Rust is the right one.
fn row_room(asked: &Asked, rng: &mut Rng, right: usize) -> usize {
    match asked.side {
        Side::C => room(rng, right),
        Side::Rust => right,
    }
}

fn ask_next(asked: &mut Asked, rng: &mut Rng, bytes: &[u8]) {
    let at = match rng.below(12) {
        0 => usize::MAX - rng.below(3),
        1 => bytes.len() + rng.below(3),
        _ => rng.below(bytes.len() + 1),
    };
    let opened = rng.chance(1, 2);
    let room = row_room(asked, rng, FOUND);
    let question = Question::new("next", b'n')
        .put(&(at as u64).to_le_bytes())
        .put(&[u8::from(opened)])
        .count(room)
        .bytes(bytes);
    let (number, buf) = if room < FOUND {
        (BUFFER_TOO_SHORT, lent(room, &[]))
    } else {
        let (number, row) = next_from(bytes, at, opened);
        (number, lent(room, &row))
    };
    asked.call(question, number, &told(&[number], &[&buf]));
}

fn ask_totals(asked: &mut Asked, rng: &mut Rng, bytes: &[u8]) {
    let room = row_room(asked, rng, TOTALS);
    let question = Question::new("totals", b't').count(room).bytes(bytes);
    let (number, buf) = if room < TOTALS {
        (BUFFER_TOO_SHORT, lent(room, &[]))
    } else {
        let c = closed(bytes).counts;
        let row = [c.frame_bytes, c.junk, c.bad, c.short].map(|n| n as u64);
        (0, lent(room, &as_bytes(&row)))
    };
    asked.call(question, number, &told(&[number], &[&buf]));
}

fn ask_list(asked: &mut Asked, rng: &mut Rng, bytes: &[u8]) {
    let text = listing(bytes);
    let room = row_room(asked, rng, text.len());
    let question = Question::new("list", b'l').count(room).bytes(bytes);
    let number = if bytes.len() > MAX_INPUT {
        INPUT_TOO_LONG
    } else if room < text.len() {
        BUFFER_TOO_SHORT
    } else {
        0
    };
    let (buf, size) = match number {
        0 => (lent(room, text.as_bytes()), as_bytes(&[text.len() as u64])),
        _ => (lent(room, &[]), vec![FILL; 8]),
    };
    asked.call(question, number, &told(&[number], &[&buf, &size]));
}

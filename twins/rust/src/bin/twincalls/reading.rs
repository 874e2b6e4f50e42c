//! Payloads read as rows.

use twin::gen::{Rng, TYPES};
use twin::messages::{observation, EphemerisGps, Field, Message, OBS_TYPE};
use twin::numbers::{No, BUFFER_TOO_SHORT, TYPE_UNKNOWN};

use crate::asked::{as_bytes, lent, told, Asked, Question, Side};
use crate::values::{kind_near, payload, room};

/// The numbers of a GPS ephemeris, which no row has more of.
const MOST: usize = EphemerisGps::NUMBERS;

pub fn ask(asked: &mut Asked, rng: &mut Rng) {
    for known in TYPES {
        let bytes = payload(rng, known);
        let kind = kind_near(rng, known);
        ask_read(asked, rng, kind, &bytes);
    }
    for _ in 0..8 {
        ask_observation(asked, rng);
    }
}

/// Some numbers around those that are read, of a refusal around those of any
/// row; in Rust as many as are read, and of a refusal none.
fn row_room(asked: &Asked, rng: &mut Rng, read: &Result<Vec<u64>, No>) -> usize {
    let any = rng.between(0, MOST);
    match (asked.side, read) {
        (Side::C, Ok(row)) => room(rng, row.len()),
        (Side::C, Err(_)) => room(rng, any),
        (Side::Rust, Ok(row)) => row.len(),
        (Side::Rust, Err(_)) => 0,
    }
}

/// What is lent for a row, and what it holds after: the answer, and its bytes.
fn row_after(read: Result<Vec<u64>, No>, room: usize) -> (No, Vec<u8>) {
    let untouched = lent(8 * room, &[]);
    match read {
        Err(no) => (no, untouched),
        Ok(row) if room < row.len() => (BUFFER_TOO_SHORT, untouched),
        Ok(row) => (0, lent(8 * room, &as_bytes(&row))),
    }
}

/// As the side has a message's row: Rust's records have all of a tail.
fn row_of(side: Side, message: &Message) -> Vec<u64> {
    let mut row = message.row();
    match (side, message) {
        (Side::Rust, Message::Obs(_, observations)) => {
            row.extend(observations.iter().flat_map(|o| o.row()));
        }
        (Side::Rust, Message::Log(log)) => row.extend(log.text.iter().map(|&b| u64::from(b))),
        _ => {}
    }
    row
}

fn ask_read(asked: &mut Asked, rng: &mut Rng, kind: u16, bytes: &[u8]) {
    let read = Message::read(kind, bytes).map(|m| row_of(asked.side, &m));
    let room = row_room(asked, rng, &read);
    let (number, buf) = row_after(read, room);
    let question = Question::new("read", b'r').of(kind);
    let question = question.count(room).bytes(bytes);
    asked.call(question, number, &told(&[number], &[&buf]));
}

fn ask_observation(asked: &mut Asked, rng: &mut Rng) {
    let kind = kind_near(rng, OBS_TYPE);
    let bytes = payload(rng, OBS_TYPE);
    let k = bytes.len() / 16;
    let any = rng.below(k + 1);
    let index = rng.pick(&[0, any, any, any, k.saturating_sub(1), k, k + 1, usize::MAX]);
    let read = if kind == OBS_TYPE {
        observation(&bytes, index).map(|o| o.row())
    } else {
        Err(TYPE_UNKNOWN)
    };
    let room = row_room(asked, rng, &read);
    let (number, buf) = row_after(read, room);
    let question = Question::new("observation", b'o').of(kind);
    let question = question.put(&(index as u64).to_le_bytes());
    let question = question.count(room).bytes(&bytes);
    asked.call(question, number, &told(&[number], &[&buf]));
}

/// What was written is read: its row, or of OBS and LOG what C has of it.
pub fn ask_back(asked: &mut Asked, kind: u16, frame: &[u8], row: &[u64]) {
    let payload = &frame[6..frame.len() - 2];
    let question = Question::new("read back", b'r').of(kind);
    let question = question.count(row.len()).bytes(payload);
    asked.call(question, 0, &told(&[0], &[&as_bytes(row)]));
}

/// One observation of what was written.
pub fn ask_observation_back(asked: &mut Asked, kind: u16, frame: &[u8], index: usize, row: &[u64]) {
    let payload = &frame[6..frame.len() - 2];
    let question = Question::new("observation back", b'o').of(kind);
    let question = question.put(&(index as u64).to_le_bytes());
    let question = question.count(row.len()).bytes(payload);
    asked.call(question, 0, &told(&[0], &[&as_bytes(row)]));
}

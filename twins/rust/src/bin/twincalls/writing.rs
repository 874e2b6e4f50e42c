//! Frames written from rows, and read back.

use twin::frames;
use twin::gen::{valid, Rng, TYPES};
use twin::messages::{obs_of_rows, write_obs, Field, Log, Message, OBS_TYPE};
use twin::numbers::{No, TYPE_UNKNOWN};

use crate::asked::{as_bytes, told, Asked, Question, Side, FILL};
use crate::reading::{ask_back, ask_observation_back};
use crate::senders::{Who, AS_CLIENT};
use crate::values::{exchange, kind_near, miscount, payload, room, row};

/// More than any frame takes.
const MOST: usize = 300;

pub fn ask(asked: &mut Asked, rng: &mut Rng) {
    for known in TYPES {
        let who = Who::any(rng);
        ask_write(asked, rng, known, who);
    }
    for _ in 0..8 {
        ask_write_obs(asked, rng);
        ask_write_log(asked, rng);
        let (known, who) = (rng.pick(&TYPES), Who::any(rng));
        ask_write_frame(asked, rng, known, who);
    }
    ask_unnamed(asked, rng);
}

/// The types that go out as 0x42, by both ways to write them, and the others of
/// settings and files, which go out as any does.
fn ask_unnamed(asked: &mut Asked, rng: &mut Rng) {
    for known in AS_CLIENT {
        let who = Who::unnamed(rng);
        ask_write(asked, rng, known, who);
        ask_write_frame(asked, rng, known, who);
    }
    let (known, who) = (rng.pick(&[0x00A0, 0x00A4, 0x00A8]), Who::unnamed(rng));
    ask_write_frame(asked, rng, known, who);
}

/// What a writer answers, and leaves in a buffer of that room and in the size.
struct Written {
    number: No,
    out: Vec<u8>,
    size: Vec<u8>,
}

impl Written {
    /// By a writer of the twin, in some room around the right one.
    fn by(rng: &mut Rng, write: impl Fn(&mut [u8]) -> Result<usize, No>) -> Written {
        let right = write(&mut [0; MOST]).unwrap_or(40);
        let mut out = vec![FILL; room(rng, right)];
        match write(&mut out) {
            Ok(size) => Written {
                number: 0,
                size: as_bytes(&[size as u64]),
                out,
            },
            Err(number) => Written {
                number,
                size: vec![FILL; 8],
                out: vec![FILL; out.len()],
            },
        }
    }

    fn asked(&self, asked: &mut Asked, question: Question) {
        let expected = told(&[self.number], &[&self.out, &self.size]);
        asked.call(question, self.number, &expected);
    }

    /// The frame, where one was written.
    fn frame(&self) -> Option<&[u8]> {
        let size = 8 + usize::from(*self.out.get(5)?);
        (self.number == 0).then(|| &self.out[..size])
    }
}

fn ask_write(asked: &mut Asked, rng: &mut Rng, known: u16, who: Who) {
    let mut numbers = row(rng, known);
    miscount(rng, &mut numbers);
    let kind = kind_near(rng, known);
    let message = Message::of_row(kind, &numbers);
    if asked.side == Side::Rust && message.is_err() {
        return;
    }
    let written = Written::by(rng, |out| message.clone()?.write(who.writer(), out));
    let question = Question::new("write", b'w').of(kind).by(who);
    let question = question.count(written.out.len());
    written.asked(asked, question.numbers(&numbers));
    if let Some(frame) = written.frame() {
        ask_back(asked, kind, frame, &numbers);
    }
}

/// Rows of a header and of observations; at times of more than fifteen.
fn obs_rows(rng: &mut Rng) -> (Vec<u64>, Vec<u64>) {
    let (mut head, mut rows) = (Vec::new(), Vec::new());
    for _ in 0..rng.pick(&[1, 1, 1, 1, 2, 3]) {
        let bytes = valid(rng, OBS_TYPE);
        if let Ok(Message::Obs(header, observations)) = Message::read(OBS_TYPE, &bytes) {
            head = header.row();
            rows.extend(observations.iter().flat_map(|o| o.row()));
        }
    }
    if rng.chance(1, 4) {
        exchange(rng, &mut head);
    }
    if rng.chance(1, 4) {
        exchange(rng, &mut rows);
    }
    (head, rows)
}

fn ask_write_obs(asked: &mut Asked, rng: &mut Rng) {
    let (mut head, mut rows) = obs_rows(rng);
    miscount(rng, &mut head);
    miscount(rng, &mut rows);
    let (kind, who) = (kind_near(rng, OBS_TYPE), Who::any(rng));
    let obs = match kind {
        OBS_TYPE => obs_of_rows(&head, &rows),
        _ => Err(TYPE_UNKNOWN),
    };
    if asked.side == Side::Rust && obs.is_err() {
        return;
    }
    let written = Written::by(rng, |out| {
        let (header, observations) = obs.clone()?;
        write_obs(&header, &observations, who.writer(), out)
    });
    let question = Question::new("write_obs", b'W').of(kind).by(who);
    let question = question.count(written.out.len());
    written.asked(asked, question.numbers(&head).numbers(&rows));
    let Some(frame) = written.frame() else {
        return;
    };
    let k = rows.len() / 8;
    head.push(k as u64);
    if asked.side == Side::Rust {
        head.extend(&rows);
    }
    if k > 0 {
        let index = rng.below(k);
        ask_observation_back(asked, kind, frame, index, &rows[8 * index..][..8]);
    }
    ask_back(asked, kind, frame, &head);
}

/// A text of any length, mostly without a zero.
fn log_text(rng: &mut Rng) -> Vec<u8> {
    let any = rng.below(254);
    let size = rng.pick(&[0, 1, any, any, any, 253, 254, 255, 256, 1000]);
    let mut text: Vec<u8> = rng.bytes(size).iter().map(|&b| b.max(1)).collect();
    if size > 0 && rng.chance(1, 4) {
        let any = rng.below(size);
        text[rng.pick(&[0, any, size - 1])] = 0;
    }
    text
}

/// None, one or some, all that there is room for, one less or more, and so
/// many that a sum with them overflows.
fn log_padding(rng: &mut Rng, text: usize) -> usize {
    let left = 254_usize.saturating_sub(text);
    let some = rng.below(left + 1);
    let full = rng.pick(&[left.saturating_sub(1), left, left + 1]);
    let huge = rng.pick(&[usize::MAX, usize::MAX - text]);
    rng.pick(&[0, 0, 1, some, some, full, full, huge])
}

fn ask_write_log(asked: &mut Asked, rng: &mut Rng) {
    let any = rng.byte();
    let level = rng.pick(&[0, any, any, any]);
    let (text, who) = (log_text(rng), Who::any(rng));
    let padding = log_padding(rng, text.len());
    let log = Log {
        level,
        text: &text,
        padding,
    };
    let written = Written::by(rng, |out| log.write(who.writer(), out));
    let question = Question::new("write_log", b'L').by(who).put(&[level]);
    let question = question.put(&(padding as u64).to_le_bytes());
    let question = question.count(written.out.len()).bytes(&text);
    written.asked(asked, question);
    if let Some(frame) = written.frame() {
        let mut row = vec![u64::from(level), text.len() as u64, padding as u64];
        if asked.side == Side::Rust {
            row.extend(text.iter().map(|&b| u64::from(b)));
        }
        ask_back(asked, Log::TYPE, frame, &row);
    }
}

fn ask_write_frame(asked: &mut Asked, rng: &mut Rng, known: u16, who: Who) {
    let kind = kind_near(rng, known);
    let bytes = payload(rng, known);
    let written = Written::by(rng, |out| frames::write(kind, who.writer(), &bytes, out));
    let question = Question::new("write_frame", b'F').of(kind).by(who);
    let question = question.count(written.out.len());
    written.asked(asked, question.bytes(&bytes));
}

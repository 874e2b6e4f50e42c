//! Collators made of a roster, and of one that grows.

use twin::epochs::Collator;
use twin::gen::Rng;
use twin::numbers::BUFFER_TOO_SHORT;

use crate::asked::{hash, lent, Asked, Question, Side};
use crate::feeding::feed_all;
use crate::states::{ask_state, After, Held, STATE};
use crate::values::room;

const SENDERS: [u16; 12] = [0, 1, 2, 66, 256, 1228, 4000, 65534, 65535, 77, 78, 0x55];

pub fn ask(asked: &mut Asked, rng: &mut Rng) {
    for make in [ask_collator, ask_growing] {
        if let Some((held, senders)) = make(asked, rng) {
            feed_all(asked, rng, held, &SENDERS[..senders]);
        }
    }
}

fn state_room(asked: &Asked, rng: &mut Rng) -> usize {
    match asked.side {
        Side::C => room(rng, STATE),
        Side::Rust => STATE,
    }
}

/// A collator of a roster, and how many of the senders feed it.
fn ask_collator(asked: &mut Asked, rng: &mut Rng) -> Option<(Held, usize)> {
    let listed = if rng.chance(1, 3) {
        rng.below(11)
    } else {
        1 + rng.below(4)
    };
    let mut roster = SENDERS[..listed].to_vec();
    if listed > 0 && rng.chance(1, 3) {
        roster[rng.below(listed)] = rng.pick(&SENDERS);
    }
    let room = state_room(asked, rng);
    let mut question = Question::new("collator", b'm').count(room);
    question = question.count(roster.len());
    for sender in &roster {
        question = question.put(&sender.to_le_bytes());
    }
    let made = Collator::new(&roster);
    let number = match &made {
        Err(number) => *number,
        Ok(_) if room < STATE => BUFFER_TOO_SHORT,
        Ok(_) => 0,
    };
    let untouched = hash(&lent(room, &[]));
    let after = match number {
        0 => After::Other(untouched),
        _ => After::Same(untouched),
    };
    let state = ask_state(asked, question, number, room, None, after);
    let held = Held {
        collator: made.ok()?,
        grows: false,
        room,
        state,
    };
    (number == 0).then_some((held, listed + 1))
}

/// A collator whose roster grows, and how many of the senders feed it.
fn ask_growing(asked: &mut Asked, rng: &mut Rng) -> Option<(Held, usize)> {
    let room = state_room(asked, rng);
    let question = Question::new("growing", b'g').count(room);
    let untouched = hash(&lent(room, &[]));
    let (number, after) = match room {
        0..STATE => (BUFFER_TOO_SHORT, After::Same(untouched)),
        _ => (0, After::Other(untouched)),
    };
    let state = ask_state(asked, question, number, room, None, after);
    let held = Held {
        collator: Collator::growing(),
        grows: true,
        room,
        state,
    };
    (number == 0).then_some((held, 1 + rng.below(SENDERS.len())))
}

//! A collator's state in the driver, and what a call does to it.

use twin::epochs::Collator;
use twin::numbers::No;

use crate::asked::{hash, lent, Asked, Question, Side};

pub const STATE: usize = 113;

/// The twin's collator and what is known of the one asked. What a state's
/// bytes are is not the twin's to know: only what leaves them as they are, and
/// what does not.
pub struct Held {
    pub collator: Collator,
    pub grows: bool,
    pub room: usize,
    pub state: u64,
}

/// What a call does to a state of that hash.
pub enum After {
    Same(u64),
    Other(u64),
    Any,
}

/// Asks about a state; its hash after the call. What is lent after its own
/// bytes is told too, and stays as it was.
pub fn ask_state(
    asked: &mut Asked,
    question: Question,
    number: No,
    room: usize,
    report: Option<&[u8]>,
    after: After,
) -> u64 {
    let report = report.map_or(Vec::new(), |r| hash(r).to_le_bytes().to_vec());
    let rest = hash(&lent(room.saturating_sub(STATE), &[]));
    let reply = asked.reply(&question, number, 18 + report.len());
    let told = reply[2..10].try_into().map_or(0, u64::from_le_bytes);
    let mut expected = vec![number, 1];
    expected.extend(told.to_le_bytes());
    expected.extend(report);
    expected.extend(rest.to_le_bytes());
    let held = match after {
        // Rust shows no state.
        _ if asked.side == Side::Rust => true,
        After::Same(before) => told == before,
        After::Other(before) => told != before,
        After::Any => true,
    };
    asked.judge(&question, held && reply == expected, &reply, &expected);
    told
}

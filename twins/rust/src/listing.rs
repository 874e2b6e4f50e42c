//! The whole text of 01's `sbplist` for a capture.

use crate::epochs::{Collator, Outcome, MAX_ROSTER};
use crate::frames::{closed, Frame};
use crate::messages::{answer, OBS_TYPE};
use crate::numbers::INPUT_TOO_LONG;
use std::fmt::Write;

pub const MAX_INPUT: usize = 65536;

/// The first eight different senders of OBS frames, malformed ones too.
pub fn roster(frames: &[Frame]) -> Vec<u16> {
    let mut found = Vec::new();
    for frame in frames {
        let is_new = !found.contains(&frame.sender);
        if frame.msg_type == OBS_TYPE && is_new && found.len() < MAX_ROSTER {
            found.push(frame.sender);
        }
    }
    found
}

pub fn listing(capture: &[u8]) -> String {
    if capture.len() > MAX_INPUT {
        return format!("R {INPUT_TOO_LONG}\n");
    }
    let reading = closed(capture);
    // With an empty roster this is 41, and no collator is made.
    let mut collator = Collator::new(&roster(&reading.frames)).ok();
    let mut text = String::new();
    for frame in &reading.frames {
        // Writing to a String cannot fail.
        let _ = writeln!(
            text,
            "F {} {} {} {} {}",
            frame.offset,
            frame.msg_type,
            frame.sender,
            frame.payload.len(),
            answer(frame.msg_type, frame.payload)
        );
        let Some(before) = collator.take() else {
            continue;
        };
        let fed = before.feed(frame.msg_type, frame.sender, frame.payload);
        collator = Some(fed.collator);
        if let Outcome::Epoch(e) = fed.outcome {
            let _ = writeln!(
                text,
                "E {} {} {} {} {}",
                e.sender, e.wn, e.tow, e.n, e.observations
            );
        }
    }
    let c = reading.counts;
    let _ = writeln!(
        text,
        "T {} {} {} {} {}",
        capture.len(),
        c.frame_bytes,
        c.junk,
        c.bad,
        c.short
    );
    text
}

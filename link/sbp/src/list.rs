//! `sbp list`: the lines of sbplist, for a capture of any length.

use crate::input::{Reader, Totals};
use crate::number;
use yaqtumeer::{Collator, Frame, Refusal};

pub struct List {
    collator: Collator,
}

impl List {
    pub fn new() -> List {
        List {
            collator: Collator::growing(),
        }
    }
}

impl Reader for List {
    fn frame(&mut self, at: u64, frame: &Frame, text: &mut Vec<u8>) {
        let told = frame.answer().map_or_else(Refusal::number, |()| 0);
        let numbers = [
            at,
            frame.kind.into(),
            frame.sender.into(),
            frame.payload.len() as u64,
            told.into(),
        ];
        number::push_line(text, b'F', &numbers);
        // A refused frame ends no epoch.
        if let Ok(Some(e)) = self.collator.feed(frame) {
            let numbers = [
                e.sender.into(),
                e.wn.into(),
                e.tow.into(),
                e.n.into(),
                e.observations.into(),
            ];
            number::push_line(text, b'E', &numbers);
        }
    }

    fn end(&mut self, totals: Option<&Totals>, text: &mut Vec<u8>) {
        if let Some(t) = totals {
            let c = t.counts;
            let numbers = [t.length, c.framed, c.junk, c.bad, c.short];
            number::push_line(text, b'T', &numbers);
        }
    }
}

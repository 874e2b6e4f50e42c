//! An index beside a capture (request P5): the frames of open reading as a
//! list of entries, the position reached, and a count for each type that has
//! a reading.

use crate::frames::{open, Frame};
use crate::numbers::{No, CAPTURE_SHORT, LIST_SHORT, TYPE_UNKNOWN};

/// The types that have a reading, in the order of their counts.
pub const COUNTED: [u16; 24] = [
    0x0049, 0x0100, 0x0206, 0x0200, 0x0201, 0x0202, 0x0204, 0x0203, 0x0205, 0x0207, 0x0044, 0x0048,
    0x0081, 0x0082, 0x0083, 0x0090, 0x0091, 0x0092, 0x00A1, 0x00A6, 0x00A2, 0xFF00, 0xFFFF, 0x0401,
];

/// A frame, told by where it is; `length` is N.
#[derive(Clone, Copy, Debug, Default, PartialEq, Eq)]
pub struct Entry {
    pub offset: u64,
    pub msg_type: u16,
    pub sender: u16,
    pub length: u8,
}

/// The numbers beside a list of entries; the empty index is all zeros. Any
/// numbers are taken as they are, also those that no call made.
#[derive(Clone, Copy, Debug, Default, PartialEq, Eq)]
pub struct Index {
    pub reached: u64,
    pub held: u64,
    pub counts: [u64; COUNTED.len()],
}

impl Entry {
    fn of(frame: &Frame) -> Entry {
        Entry {
            offset: frame.offset as u64,
            msg_type: frame.msg_type,
            sender: frame.sender,
            // A payload's length was read from one byte.
            length: frame.payload.len() as u8,
        }
    }
}

impl Index {
    /// The index of this list extended to what the capture has by now: 52,
    /// then 51, and then nothing is changed.
    pub fn extend(&mut self, capture: &[u8], list: &mut [Entry]) -> Result<(), No> {
        if (capture.len() as u64) < self.reached {
            return Err(CAPTURE_SHORT);
        }
        let read = open(capture, self.reached as usize);
        // No list has room for more than a number can say.
        let held = self.held.checked_add(read.frames.len() as u64);
        let held = held.filter(|&held| held <= list.len() as u64);
        let held = held.ok_or(LIST_SHORT)?;
        for (place, frame) in (self.held..held).zip(&read.frames) {
            list[place as usize] = Entry::of(frame);
        }
        for frame in &read.frames {
            if let Some(count) = place_of(frame.msg_type) {
                self.counts[count] = self.counts[count].wrapping_add(1);
            }
        }
        self.held = held;
        self.reached = read.at as u64;
        Ok(())
    }

    /// The place in the list of the first such frame at or after an offset,
    /// or none; or 51.
    pub fn first(
        &self,
        list: &[Entry],
        msg_type: u16,
        sender: u16,
        offset: u64,
    ) -> Result<Option<usize>, No> {
        if (list.len() as u64) < self.held {
            return Err(LIST_SHORT);
        }
        let wanted = |e: &Entry| e.msg_type == msg_type && e.sender == sender && e.offset >= offset;
        Ok(list[..self.held as usize].iter().position(wanted))
    }

    /// The kept total; or 21.
    pub fn count(&self, msg_type: u16) -> Result<u64, No> {
        let place = place_of(msg_type).ok_or(TYPE_UNKNOWN)?;
        Ok(self.counts[place])
    }

    /// As C and Rust keep it: reached, held and the counts, 64 bits each.
    pub fn bytes(&self) -> Vec<u8> {
        let numbers = [self.reached, self.held].into_iter().chain(self.counts);
        numbers.flat_map(u64::to_le_bytes).collect()
    }
}

fn place_of(msg_type: u16) -> Option<usize> {
    COUNTED.iter().position(|&counted| counted == msg_type)
}

//! The five lines of document 01, as one step at a position.

use super::AROUND;
use crate::crc::crc;

pub(super) const PREAMBLE: u8 = 0x55;

/// Preamble, type, sender and length: what must be there to know N.
const HEADER: usize = 6;

/// A frame as it lies in the capture; the payload is not copied.
#[derive(Clone, Copy, Debug, PartialEq, Eq)]
pub struct Frame<'a> {
    pub offset: usize,
    pub msg_type: u16,
    pub sender: u16,
    pub payload: &'a [u8],
}

impl Frame<'_> {
    /// The whole frame's size, N + 8.
    pub fn size(&self) -> usize {
        self.payload.len() + AROUND
    }
}

/// What stands at a position.
#[derive(Clone, Copy, Debug, PartialEq, Eq)]
pub enum Step<'a> {
    Finished,
    Junk,
    /// `needed` bytes from the position are wanted to decide.
    Short {
        needed: usize,
    },
    Bad,
    Frame(Frame<'a>),
}

/// The first of the five lines that holds at `p`.
pub fn step(capture: &[u8], p: usize) -> Step<'_> {
    if p >= capture.len() {
        return Step::Finished;
    }
    let rest = &capture[p..];
    if rest[0] != PREAMBLE {
        return Step::Junk;
    }
    if rest.len() < HEADER {
        return Step::Short { needed: HEADER };
    }
    let n = usize::from(rest[5]);
    if rest.len() < n + AROUND {
        return Step::Short { needed: n + AROUND };
    }
    // The preamble is left out of the CRC.
    let stated = u16::from_le_bytes([rest[n + 6], rest[n + 7]]);
    if crc(0, &rest[1..n + 6]) != stated {
        return Step::Bad;
    }
    Step::Frame(Frame {
        offset: p,
        msg_type: u16::from_le_bytes([rest[1], rest[2]]),
        sender: u16::from_le_bytes([rest[3], rest[4]]),
        payload: &rest[6..n + 6],
    })
}

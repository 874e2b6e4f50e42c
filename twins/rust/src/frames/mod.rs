//! Frames: 003 section 2, and 01's "Finding frames and resuming".

mod closed;
mod open;
mod step;
mod write;
mod writer;

pub use closed::{closed, Closed};
pub use open::{open, Open};
use step::PREAMBLE;
pub use step::{step, Frame, Step};
pub use write::write;
pub use writer::Writer;

/// Header of 6 bytes and CRC of 2 around every payload.
const AROUND: usize = 8;

/// The bytes in frames, and those passed over by reason.
#[derive(Clone, Copy, Debug, Default, PartialEq, Eq)]
pub struct Counts {
    pub frame_bytes: usize,
    pub junk: usize,
    pub bad: usize,
    pub short: usize,
}

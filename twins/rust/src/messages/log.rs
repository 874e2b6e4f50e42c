//! LOG, as request P1 has it: a level, a text that ends before the first zero,
//! and zeros alone after it.

use crate::frames::{self, Writer};
use crate::numbers::{No, LENGTH_WRONG, OUT_OF_RANGE, PAYLOAD_TOO_LONG};

/// The text is bytes (003 says string), none of them zero. The padding counts
/// the zeros after it, so that the same bytes come back.
#[derive(Clone, Copy, Debug, PartialEq, Eq)]
pub struct Log<'a> {
    pub level: u8,
    pub text: &'a [u8],
    pub padding: usize,
}

impl<'a> Log<'a> {
    pub const TYPE: u16 = 0x0401;
    const MAX_LENGTH: usize = 255;

    /// 22, then 23 for a nonzero byte after a zero.
    pub fn read(payload: &'a [u8]) -> Result<Log<'a>, No> {
        if payload.is_empty() || payload.len() > Self::MAX_LENGTH {
            return Err(LENGTH_WRONG);
        }
        // A level of 0 ends nothing.
        let after_level = &payload[1..];
        let zero = after_level.iter().position(|&b| b == 0);
        let (text, rest) = after_level.split_at(zero.unwrap_or(after_level.len()));
        if rest.iter().any(|&b| b != 0) {
            return Err(OUT_OF_RANGE);
        }
        Ok(Log {
            level: payload[0],
            text,
            padding: rest.len(),
        })
    }

    /// 23 for a zero in the text, however long that is; then 31, 32.
    pub fn write(&self, writer: Writer, out: &mut [u8]) -> Result<usize, No> {
        if self.text.contains(&0) {
            return Err(OUT_OF_RANGE);
        }
        // The padding may be any number, so that the sum may overflow.
        let length = self.padding.checked_add(1 + self.text.len());
        let length = length.filter(|&n| n <= Self::MAX_LENGTH);
        let length = length.ok_or(PAYLOAD_TOO_LONG)?;
        let mut payload = vec![self.level];
        payload.extend_from_slice(self.text);
        payload.resize(length, 0);
        frames::write(Self::TYPE, writer, &payload, out)
    }
}

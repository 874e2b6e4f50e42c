//! Frames written into a lent buffer.

use crate::raw;
use crate::refusal::{Refusal, answered};
use crate::writer::Writer;

/// The longest frame: 255 bytes of payload and 8 around them.
///
/// ```
/// use yaqtumeer::{LONGEST_FRAME, Writer, write_frame};
///
/// let (mut out, recorder) = ([0; LONGEST_FRAME], Writer::new(1228));
/// assert_eq!(write_frame(&mut out, 0x0401, recorder, &[b'x'; 255]), Ok(LONGEST_FRAME));
/// ```
pub const LONGEST_FRAME: usize = 263;

/// Writes a frame of any type with any payload of up to 255 bytes at the
/// buffer's start, and says its length. The [`Writer`] says who sends it.
///
/// Refused: [`Refusal::TooMuch`], [`Refusal::NoRoom`]; then nothing is written.
///
/// ```
/// use yaqtumeer::{Refusal, Writer, write_frame};
///
/// let (mut out, recorder) = ([0xee; 12], Writer::new(1228));
/// assert_eq!(write_frame(&mut out, 0x0800, recorder, &[7, 0]), Ok(10));
/// assert_eq!(out, [0x55, 0x00, 0x08, 0xcc, 0x04, 2, 7, 0, 0xd7, 0x88, 0xee, 0xee]);
/// assert_eq!(write_frame(&mut out, 0x0800, recorder, &[0; 5]), Err(Refusal::NoRoom));
/// ```
pub fn write_frame(
    out: &mut [u8],
    kind: u16,
    writer: Writer,
    payload: &[u8],
) -> Result<usize, Refusal> {
    let (own, sender) = writer.numbers();
    sized(|size| unsafe {
        raw::sbp_write_frame(
            out.as_mut_ptr(),
            out.len(),
            kind,
            own,
            sender,
            payload.as_ptr(),
            payload.len(),
            size,
        )
    })
}

/// The size that a call of the library leaves, or its refusal.
pub(crate) fn sized(call: impl FnOnce(&mut u64) -> u8) -> Result<usize, Refusal> {
    let mut size = 0;
    answered(call(&mut size)).map(|()| size as usize)
}

/// The numbers of a message without a tail, written as a frame.
pub(crate) fn write_row(
    out: &mut [u8],
    kind: u16,
    writer: Writer,
    row: &[u64],
) -> Result<usize, Refusal> {
    let (own, sender) = writer.numbers();
    sized(|size| unsafe {
        raw::sbp_write(
            out.as_mut_ptr(),
            out.len(),
            kind,
            own,
            sender,
            row.as_ptr(),
            row.len(),
            size,
        )
    })
}

/// What a call writes, in memory of its own.
pub(crate) fn framed(
    write: impl FnOnce(&mut [u8]) -> Result<usize, Refusal>,
) -> Result<Vec<u8>, Refusal> {
    let mut out = vec![0; LONGEST_FRAME];
    let size = write(&mut out)?;
    out.truncate(size);
    Ok(out)
}

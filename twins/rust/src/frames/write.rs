//! The raw frame writer.

use super::{Writer, AROUND, PREAMBLE};
use crate::crc::crc;
use crate::numbers::{No, BUFFER_TOO_SHORT, PAYLOAD_TOO_LONG};

/// Writes a frame at the start of `out` and gives its size. Refusals (31,
/// then 32) come before the first byte is written.
pub fn write(msg_type: u16, writer: Writer, payload: &[u8], out: &mut [u8]) -> Result<usize, No> {
    let n = u8::try_from(payload.len()).map_err(|_| PAYLOAD_TOO_LONG)?;
    let size = payload.len() + AROUND;
    if out.len() < size {
        return Err(BUFFER_TOO_SHORT);
    }
    out[0] = PREAMBLE;
    out[1..3].copy_from_slice(&msg_type.to_le_bytes());
    out[3..5].copy_from_slice(&writer.sender(msg_type).to_le_bytes());
    out[5] = n;
    out[6..size - 2].copy_from_slice(payload);
    let sum = crc(0, &out[1..size - 2]);
    out[size - 2..size].copy_from_slice(&sum.to_le_bytes());
    Ok(size)
}

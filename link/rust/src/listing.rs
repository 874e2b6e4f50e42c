//! The listing of a capture.

use crate::raw;
use crate::refusal::Refusal;
use crate::writing::sized;

/// The listing of a complete capture of up to 65536 bytes, as `sbplist` prints
/// it, all numbers in decimal: for each frame a line `F` with offset, type,
/// sender, payload length and answer (0, or the number of the [`Refusal`] to
/// read it); after the frame that ends an epoch a line `E` with sender, week,
/// time of week, packets and observations; at the end `T` with the capture's
/// length, the bytes in frames, and those passed over as junk, bad and short.
///
/// Refused: [`Refusal::TooLong`].
///
/// ```
/// use yaqtumeer::{Heartbeat, Writer, list};
///
/// let capture = Heartbeat { flags: 0 }.frame(Writer::new(9)).unwrap();
/// let text = list(&capture).unwrap();
/// assert_eq!(text, "F 0 65535 9 4 0\nT 12 12 0 0 0\n");
/// ```
pub fn list(capture: &[u8]) -> Result<String, Refusal> {
    // room for every listing
    let mut text = vec![0; 8 * capture.len() + 32];
    let size = sized(|size| unsafe {
        raw::sbp_list(
            capture.as_ptr(),
            capture.len(),
            text.as_mut_ptr(),
            text.len(),
            size,
        )
    })?;
    text.truncate(size);
    Ok(String::from_utf8(text).expect("a listing is ASCII"))
}

//! Swift Navigation Binary Protocol 1.1: frames found in captures and written,
//! their messages as structs, observation epochs collated sender by sender, and
//! an index beside a capture that grows.
//!
//! Every decision is made by a library that is proved to make it as the
//! published protocol says, to be safe and to end on any input; this crate is
//! its safe wrapper. What a call refuses it names by a [`Refusal`].
//!
//! ```
//! use yaqtumeer::{Collator, Frames, Message, PosLlh, Writer};
//!
//! let place = PosLlh { lat: 37.7749, lon: -122.4194, flags: 1, ..PosLlh::default() };
//! let capture = place.frame(Writer::new(1228)).unwrap();
//!
//! let mut collator = Collator::growing();
//! let mut frames = Frames::closed(&capture);
//! for frame in &mut frames {
//!     if let Ok(Some(epoch)) = collator.feed(&frame) {
//!         println!("epoch of {}: {} observations", epoch.sender, epoch.observations);
//!     }
//!     if let Ok(Message::PosLlh(place)) = frame.message() {
//!         println!("{} at {} {} ({:?})", frame.sender, place.lat, place.lon, place.fix());
//!     }
//! }
//! println!("{} bytes were junk", frames.counts().junk);
//! ```
//!
//! The library, libyaqtumeer.a, is linked from the folder that `YAQTUMEER_LIB`
//! names at compile time; by default from target/lib of the repository, where
//! `link/library` puts it.
#![warn(missing_docs)]

mod collator;
mod counts;
mod flags;
mod frames;
mod index;
mod listing;
mod messages;
mod phase;
mod raw;
mod refusal;
mod rows;
mod version;
mod writer;
mod writing;

pub use collator::{Collator, Epoch};
pub use counts::{Counts, totals};
pub use flags::Fix;
pub use frames::{Frame, Frames, answer};
pub use index::{Entry, Index};
pub use listing::list;
pub use messages::*;
pub use phase::PhaseParts;
pub use refusal::Refusal;
pub use version::{Version, version};
pub use writer::Writer;
pub use writing::{LONGEST_FRAME, write_frame};

/// The CRC that frames end with, of the bytes from type through payload:
/// polynomial x^16 + x^12 + x^5 + 1, highest bit first. It begins at `start`: 0,
/// or what the bytes before these came to, so that it may be taken in parts,
/// empty ones too.
///
/// ```
/// use yaqtumeer::crc;
///
/// assert_eq!(crc(0, b"123456789"), 0x31c3);
/// assert_eq!(crc(crc(0, b"1234"), b"56789"), 0x31c3);
/// ```
pub fn crc(start: u16, bytes: &[u8]) -> u16 {
    unsafe { raw::sbp_crc(start, bytes.as_ptr(), bytes.len()) }
}

/// The CRC of a frame whose header and payload lie in two buffers. The header is
/// six bytes, 0x55, type, sender and length, of which the CRC leaves out the
/// first. Any lengths are taken as they are, and no byte is compared.
///
/// ```
/// use yaqtumeer::{Frames, frame_crc};
///
/// let (header, payload, sent) = ([0x55, 0xa2, 0, 0x42, 0, 2], [7, 0], [0xf0, 0x07]);
/// assert_eq!(frame_crc(&header, &payload), u16::from_le_bytes(sent));
///
/// let capture = [&header[..], &payload, &sent].concat();
/// assert_eq!(Frames::closed(&capture).count(), 1);
/// ```
pub fn frame_crc(header: &[u8], payload: &[u8]) -> u16 {
    unsafe {
        raw::sbp_frame_crc(
            header.as_ptr(),
            header.len(),
            payload.as_ptr(),
            payload.len(),
        )
    }
}

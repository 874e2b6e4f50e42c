//! An index beside a capture.

use std::slice::Iter;

use crate::raw;
use crate::refusal::{Refusal, answered, never_refused};
use crate::rows::number;
use crate::writing::LONGEST_FRAME;

const INDEX: usize = 208;
// what sbp_first tells beside 0, an entry
const END: u8 = 1;
const SHORTEST_FRAME: usize = 8;
// So much is read in one call, so that room for all frames it may have is little.
const PIECE: usize = 64 << 10;
// One that begins at the position reached has the whole frame, and so each call reads on.
const _: () = assert!(PIECE >= LONGEST_FRAME);

/// A frame of a capture, as an [`Index`] has it.
///
/// ```
/// use yaqtumeer::{Entry, Heartbeat, Index, Writer};
///
/// let mut index = Index::new();
/// index.extend(&Heartbeat { flags: 0 }.frame(Writer::new(1228)).unwrap()).unwrap();
/// let expected = Entry { offset: 0, kind: Heartbeat::KIND, sender: 1228, length: 4 };
/// assert_eq!(index.iter().next(), Some(&expected));
/// ```
#[repr(C)]
#[derive(Clone, Copy, Debug, Default, PartialEq, Eq, Hash)]
pub struct Entry {
    /// Where it begins in the capture.
    pub offset: u64,
    /// Its type.
    pub kind: u16,
    /// Its sender.
    pub sender: u16,
    /// The length of its payload.
    pub length: u8,
}

/// Where the frames of a capture stand, and how many there are of each type that
/// has a reading, so that a question needs no reading of the capture. It holds the frames of open
/// reading (see [`Frames`](crate::Frames)), those with a payload that is refused
/// too.
///
/// While the capture grows, [`extend`](Index::extend) reads what came after the
/// position that was reached; given the same earlier bytes, that comes to the
/// index made afresh.
///
/// ```
/// use yaqtumeer::{Dops, Heartbeat, Index, Startup, Writer};
///
/// let beat = Heartbeat { flags: 0 }.frame(Writer::new(1228)).unwrap();
/// let start = Startup { reserved: 0 }.frame(Writer::new(7)).unwrap();
/// let mut capture = [beat.clone(), start].concat();
/// let mut index = Index::new();
/// index.extend(&capture).unwrap();
/// assert_eq!(index.first(Heartbeat::KIND, 1228, 1), None);
///
/// capture.extend(beat);
/// index.extend(&capture).unwrap();
/// assert_eq!(index.first(Heartbeat::KIND, 1228, 1).unwrap().offset, 24);
/// assert_eq!(index.count(Heartbeat::KIND), Ok(2));
/// assert_eq!(index.count(Dops::KIND), Ok(0));
/// ```
#[derive(Clone, Debug, PartialEq, Eq)]
pub struct Index {
    numbers: [u8; INDEX],
    /// Those that are held, and no others.
    entries: Vec<Entry>,
}

impl Index {
    /// Of nothing.
    ///
    /// ```
    /// let index = yaqtumeer::Index::new();
    /// assert_eq!((index.reached(), index.iter().count()), (0, 0));
    /// ```
    pub fn new() -> Index {
        let mut numbers = [0; INDEX];
        never_refused(unsafe { raw::sbp_index(numbers.as_mut_ptr(), INDEX) });
        Index {
            numbers,
            entries: Vec::new(),
        }
    }

    /// Reads on in a capture, given whole, from the position reached to its end
    /// or to a frame that has not come whole.
    ///
    /// Refused: [`Refusal::CaptureShort`] where the capture is shorter than the
    /// position reached.
    ///
    /// ```
    /// use yaqtumeer::{Index, Refusal, SettingsSave, Writer};
    ///
    /// let capture = SettingsSave {}.frame(Writer::new(1228)).unwrap();
    /// let mut index = Index::new();
    /// assert_eq!(index.extend(&capture[..5]), Ok(()));
    /// assert_eq!((index.reached(), index.iter().count()), (0, 0));
    /// assert_eq!(index.extend(&capture), Ok(()));
    /// assert_eq!((index.reached(), index.iter().count()), (8, 1));
    /// assert_eq!(index.extend(&capture[..7]), Err(Refusal::CaptureShort));
    /// ```
    pub fn extend(&mut self, capture: &[u8]) -> Result<(), Refusal> {
        self.extend_after(0, capture)
    }

    /// The same with the capture's first bytes left out: `rest` is what stands
    /// after `before` of them. So a capture of any length can be read through a
    /// small buffer.
    ///
    /// Refused: [`Refusal::CaptureShort`].
    ///
    /// # Panics
    ///
    /// Where bytes are left out that were not read: `before` is past the
    /// position reached.
    ///
    /// ```
    /// use yaqtumeer::{Index, SettingsSave, Writer};
    ///
    /// let capture = SettingsSave {}.frame(Writer::new(1228)).unwrap().repeat(2);
    /// let mut index = Index::new();
    /// index.extend(&capture[..11]).unwrap();
    /// assert_eq!(index.reached(), 8);
    /// index.extend_after(8, &capture[8..]).unwrap();
    /// let offsets: Vec<u64> = index.iter().map(|entry| entry.offset).collect();
    /// assert_eq!(offsets, [0, 8]);
    /// ```
    pub fn extend_after(&mut self, before: u64, rest: &[u8]) -> Result<(), Refusal> {
        loop {
            let read = self.reached().checked_sub(before);
            let read = read.expect("no byte is left out that was not read") as usize;
            let end = rest.len().min(read.saturating_add(PIECE));
            self.extend_piece(before, &rest[..end], end.saturating_sub(read))?;
            if end == rest.len() {
                return Ok(());
            }
        }
    }

    /// A call of the library, with room for every frame that so many unread
    /// bytes may have. It is lent the piece as a capture: positions are counted
    /// from there, and from the true start again afterwards. That this comes to
    /// the same is proved (`OfTheRest`, crates/indexed/specs/Growing.antt).
    fn extend_piece(&mut self, before: u64, piece: &[u8], unread: usize) -> Result<(), Refusal> {
        let held = self.entries.len();
        self.entries
            .resize(held + unread / SHORTEST_FRAME, Entry::default());
        self.set_reached(self.reached() - before);
        let told = unsafe {
            raw::sbp_extend(
                self.numbers.as_mut_ptr(),
                INDEX,
                piece.as_ptr(),
                piece.len(),
                self.entries.as_mut_ptr(),
                self.entries.len(),
            )
        };
        self.set_reached(self.reached() + before);
        self.entries.truncate(number(&self.numbers, 8, 8) as usize);
        for entry in &mut self.entries[held..] {
            entry.offset += before;
        }
        answered(told)
    }

    /// The first frame of a type and sender that begins at an offset or after
    /// it, of those read so far. Any type may be asked for.
    ///
    /// ```
    /// use yaqtumeer::{Heartbeat, Index, Writer};
    ///
    /// let beats = Heartbeat { flags: 0 }.frame(Writer::new(1228)).unwrap().repeat(3);
    /// let mut index = Index::new();
    /// index.extend(&beats).unwrap();
    /// assert_eq!(index.first(Heartbeat::KIND, 1228, 12).unwrap().offset, 12);
    /// assert_eq!(index.first(Heartbeat::KIND, 1228, 13).unwrap().offset, 24);
    /// assert_eq!(index.first(Heartbeat::KIND, 1228, 25), None);
    /// assert_eq!(index.first(Heartbeat::KIND, 0, 0), None);
    /// ```
    pub fn first(&self, kind: u16, sender: u16, offset: u64) -> Option<Entry> {
        let mut place = 0;
        let told = unsafe {
            raw::sbp_first(
                self.numbers.as_ptr(),
                INDEX,
                self.entries.as_ptr(),
                self.entries.len(),
                kind,
                sender,
                offset,
                &mut place,
            )
        };
        match told {
            END => return None,
            other => never_refused(other),
        }
        Some(self.entries[place as usize])
    }

    /// How many frames of a type were read so far.
    ///
    /// Refused: [`Refusal::UnknownType`].
    ///
    /// ```
    /// use yaqtumeer::{Index, Obs, Refusal};
    ///
    /// assert_eq!(Index::new().count(Obs::KIND), Ok(0));
    /// assert_eq!(Index::new().count(0x0800), Err(Refusal::UnknownType));
    /// ```
    pub fn count(&self, kind: u16) -> Result<u64, Refusal> {
        let mut count = 0;
        answered(unsafe { raw::sbp_count(self.numbers.as_ptr(), INDEX, kind, &mut count) })?;
        Ok(count)
    }

    /// The position in the capture that the reading has reached: its end, or the
    /// start of a frame that has not come whole.
    ///
    /// ```
    /// let mut index = yaqtumeer::Index::new();
    /// index.extend(&[1, 2, 0x55, 3]).unwrap();
    /// assert_eq!(index.reached(), 2);
    /// ```
    pub fn reached(&self) -> u64 {
        number(&self.numbers, 0, 8)
    }

    fn set_reached(&mut self, position: u64) {
        self.numbers[..8].copy_from_slice(&position.to_le_bytes());
    }

    /// The frames read so far, in the capture's order.
    ///
    /// ```
    /// use yaqtumeer::{Index, Startup, Writer};
    ///
    /// let mut index = Index::new();
    /// index.extend(&Startup { reserved: 0 }.frame(Writer::new(9)).unwrap()).unwrap();
    /// for entry in index.iter() {
    ///     println!("type {} of {} at {}", entry.kind, entry.sender, entry.offset);
    /// }
    /// assert_eq!(index.iter().len(), 1);
    /// ```
    pub fn iter(&self) -> Iter<'_, Entry> {
        self.entries.iter()
    }
}

impl Default for Index {
    fn default() -> Index {
        Index::new()
    }
}

impl<'a> IntoIterator for &'a Index {
    type Item = &'a Entry;
    type IntoIter = Iter<'a, Entry>;

    fn into_iter(self) -> Iter<'a, Entry> {
        self.iter()
    }
}

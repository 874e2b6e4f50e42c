//! Frames found in a capture.

use std::iter::FusedIterator;

use crate::counts::Counts;
use crate::messages::Message;
use crate::raw;
use crate::refusal::{Refusal, answered, never_refused};
use crate::rows::number;

const FOUND: usize = 53;
// what is told beside 0, a frame
const END: u8 = 1;
const NEEDS: u8 = 2;
// what stands before a payload: 0x55, type, sender, length
const HEAD: usize = 6;

/// A frame of a capture.
///
/// ```
/// use yaqtumeer::{Frames, Message, ReadByIndexReq, Writer};
///
/// let capture = ReadByIndexReq { index: 7 }.frame(Writer::new(1228)).unwrap();
/// let frame = Frames::closed(&capture).next().unwrap();
/// assert_eq!((frame.at, frame.kind, frame.sender), (0, 0x00a2, 0x42));
/// assert_eq!((frame.payload, frame.crc), (&[7, 0][..], 0x07f0));
/// ```
#[derive(Clone, Copy, Debug, PartialEq, Eq)]
pub struct Frame<'a> {
    /// Where it begins in the capture.
    pub at: usize,
    /// Its type.
    pub kind: u16,
    /// Its sender.
    pub sender: u16,
    /// Its payload, which is a part of the capture.
    pub payload: &'a [u8],
    /// The CRC that it ends with.
    pub crc: u16,
}

impl Frame<'_> {
    /// Its length: that of the payload and 8 bytes around it.
    ///
    /// ```
    /// use yaqtumeer::{Frames, Startup, Writer};
    ///
    /// let capture = Startup { reserved: 0 }.frame(Writer::new(1228)).unwrap();
    /// assert_eq!(Frames::closed(&capture).next().unwrap().size(), 12);
    /// ```
    pub fn size(&self) -> usize {
        self.payload.len() + 8
    }

    /// Its message, read by [`Message::read`].
    ///
    /// ```
    /// use yaqtumeer::{Frames, Message, Startup, Writer};
    ///
    /// let capture = Startup { reserved: 5 }.frame(Writer::new(1228)).unwrap();
    /// let frame = Frames::closed(&capture).next().unwrap();
    /// assert_eq!(frame.message(), Ok(Message::Startup(Startup { reserved: 5 })));
    /// ```
    pub fn message(&self) -> Result<Message, Refusal> {
        Message::read(self.kind, self.payload)
    }

    /// Whether its payload can be read, by [`answer`](crate::answer).
    ///
    /// ```
    /// use yaqtumeer::{Frames, Refusal};
    ///
    /// let capture = [0x55, 0, 0, 0, 0, 0, 0, 0];
    /// let frame = Frames::closed(&capture).next().unwrap();
    /// assert_eq!(frame.answer(), Err(Refusal::UnknownType));
    /// ```
    pub fn answer(&self) -> Result<(), Refusal> {
        answer(self.kind, self.payload)
    }
}

/// Whether a payload of that type can be read.
///
/// Refused: [`Refusal::UnknownType`], [`Refusal::WrongLength`],
/// [`Refusal::OutOfRange`].
///
/// ```
/// use yaqtumeer::{Refusal, answer};
///
/// assert_eq!(answer(0xffff, &[0; 4]), Ok(()));
/// assert_eq!(answer(0xffff, &[0; 5]), Err(Refusal::WrongLength));
/// assert_eq!(answer(0xfffe, &[]), Err(Refusal::UnknownType));
/// ```
pub fn answer(kind: u16, payload: &[u8]) -> Result<(), Refusal> {
    answered(unsafe { raw::sbp_answer(kind, payload.as_ptr(), payload.len()) })
}

/// The frames of a lent capture, one after another, with the counts of the
/// bytes passed over on the way.
///
/// A frame begins with 0x55 and ends with a CRC that agrees. Where it does not
/// agree the reading goes on at the very next byte, so that no frame is lost
/// inside a damaged one. In *closed* reading the capture is complete; in *open*
/// reading more may come, and a frame that has not come whole ends the
/// iteration, with [`needs`](Frames::needs) telling how much to wait for.
///
/// What open reading has handed out stays: of a longer capture that begins
/// with this one it hands out the same frames first, and going on from
/// [`position`](Frames::position) finds what starting over comes to. Closed
/// reading of a capture that goes on may take frames back.
///
/// ```
/// use yaqtumeer::{Frames, Heartbeat, Writer, totals};
///
/// let mut capture = b"noise".to_vec();
/// capture.extend(Heartbeat { flags: 0 }.frame(Writer::new(1)).unwrap());
/// capture.extend(b"more");
/// let mut frames = Frames::closed(&capture);
/// for frame in &mut frames {
///     println!("type {} of {} at {}", frame.kind, frame.sender, frame.at);
/// }
/// assert_eq!(frames.counts(), totals(&capture));
/// assert_eq!((frames.counts().framed, frames.counts().junk), (12, 9));
/// ```
#[derive(Clone, Debug)]
pub struct Frames<'a> {
    capture: &'a [u8],
    opened: bool,
    position: usize,
    needs: Option<usize>,
    counts: Counts,
}

impl<'a> Frames<'a> {
    /// Of a complete capture.
    ///
    /// ```
    /// assert_eq!(yaqtumeer::Frames::closed(b"no frame here").count(), 0);
    /// ```
    pub fn closed(capture: &'a [u8]) -> Frames<'a> {
        Frames::reading(capture, false)
    }

    /// Of the part of a capture that has come so far.
    ///
    /// ```
    /// use yaqtumeer::{Dops, Frames, Writer};
    ///
    /// // a frame that comes in two parts
    /// let whole = Dops::default().frame(Writer::new(1228)).unwrap();
    /// let mut frames = Frames::open(&whole[..10]);
    /// assert_eq!(frames.next(), None);
    /// assert_eq!((frames.position(), frames.needs()), (0, Some(whole.len())));
    /// let mut frames = Frames::open(&whole).starting_at(frames.position());
    /// assert_eq!(frames.next().unwrap().kind, Dops::KIND);
    /// ```
    pub fn open(capture: &'a [u8]) -> Frames<'a> {
        Frames::reading(capture, true)
    }

    fn reading(capture: &'a [u8], opened: bool) -> Frames<'a> {
        Frames {
            capture,
            opened,
            position: 0,
            needs: None,
            counts: Counts::default(),
        }
    }

    /// The same from a position on; what stands before it is not counted.
    ///
    /// ```
    /// use yaqtumeer::{Frames, SettingsSave, Writer};
    ///
    /// let two = SettingsSave {}.frame(Writer::new(1228)).unwrap().repeat(2);
    /// let mut frames = Frames::closed(&two).starting_at(8);
    /// assert_eq!(frames.next().unwrap().at, 8);
    /// assert_eq!(frames.next(), None);
    /// ```
    pub fn starting_at(mut self, position: usize) -> Frames<'a> {
        self.position = position;
        self
    }

    /// The bytes in the frames found so far, and those passed over so far.
    /// After the end of a closed reading from the start they add up to the
    /// capture's length; of an open one, to [`position`](Frames::position).
    ///
    /// ```
    /// let mut frames = yaqtumeer::Frames::closed(&[0x55, 1, 2, 3]);
    /// assert_eq!(frames.next(), None);
    /// assert_eq!((frames.counts().short, frames.counts().junk), (1, 3));
    /// ```
    pub fn counts(&self) -> Counts {
        self.counts
    }

    /// Where the reading stands: after the frame found last or, where there is
    /// none any more, at the end or at the frame that has not come whole.
    ///
    /// ```
    /// let mut frames = yaqtumeer::Frames::open(&[1, 2, 0x55, 3]);
    /// assert_eq!(frames.next(), None);
    /// assert_eq!(frames.position(), 2);
    /// ```
    pub fn position(&self) -> usize {
        self.position
    }

    /// In open reading, once there is no further frame: how many bytes from
    /// [`position`](Frames::position) on are needed to go on; `None` where the
    /// reading has come to the end.
    ///
    /// ```
    /// let mut frames = yaqtumeer::Frames::open(&[1, 2, 0x55, 3]);
    /// assert_eq!(frames.next(), None);
    /// assert_eq!(frames.needs(), Some(6));
    /// ```
    pub fn needs(&self) -> Option<usize> {
        self.needs
    }

    fn frame(&self, at: usize, kind: u16, sender: u16, length: usize) -> Frame<'a> {
        let after = at + HEAD + length;
        Frame {
            at,
            kind,
            sender,
            payload: &self.capture[at + HEAD..after],
            crc: number(self.capture, after, 2) as u16,
        }
    }
}

impl<'a> Iterator for Frames<'a> {
    type Item = Frame<'a>;

    fn next(&mut self) -> Option<Frame<'a>> {
        let mut row = [0; FOUND];
        let told = unsafe {
            raw::sbp_next(
                self.capture.as_ptr(),
                self.capture.len(),
                self.position,
                self.opened,
                row.as_mut_ptr(),
                FOUND,
            )
        };
        let place = |at| number(&row, at, 8) as usize;
        let short_number = |at| number(&row, at, 2) as u16;
        self.position = place(8);
        self.needs = (told == NEEDS).then(|| place(16));
        // passed over on the way, whatever stands at its end
        self.counts.junk += number(&row, 24, 8);
        self.counts.bad += number(&row, 32, 8);
        self.counts.short += number(&row, 40, 8);
        match told {
            0 => {}
            END | NEEDS => return None,
            refused => never_refused(refused),
        }
        let frame = self.frame(place(0), short_number(48), short_number(50), row[52].into());
        self.counts.framed += frame.size() as u64;
        Some(frame)
    }
}

/// Where there is no further frame, asking again changes nothing.
impl FusedIterator for Frames<'_> {}

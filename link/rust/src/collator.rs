//! Observation epochs, sender by sender.

use crate::frames::Frame;
use crate::raw;
use crate::refusal::{Refusal, answered, never_refused};
use crate::rows::number;

const STATE: usize = 113;
const REPORT: usize = 11;

/// A whole epoch of a sender: all of its packets came, in any order, with no
/// packet of another epoch of that sender between them.
///
/// ```
/// use yaqtumeer::{Collator, Epoch, Obs, Writer};
///
/// let packet = Obs { tow: 1000, wn: 1900, n_obs: 0x10, observations: vec![] };
/// let frame = packet.frame(Writer::new(0)).unwrap();
/// let epoch = Collator::growing().feed_content(Obs::KIND, 0, &frame[6..13]);
/// let expected = Epoch { sender: 0, wn: 1900, tow: 1000, n: 1, observations: 0 };
/// assert_eq!(epoch, Ok(Some(expected)));
/// ```
#[derive(Clone, Copy, Debug, PartialEq, Eq, Hash)]
pub struct Epoch {
    /// Whose it is.
    pub sender: u16,
    /// GPS week.
    pub wn: u16,
    /// Time of week in ms.
    pub tow: u32,
    /// How many packets it came in, 1 to 15.
    pub n: u8,
    /// How many observations they have together, at most 225.
    pub observations: u16,
}

/// Collates observation frames into epochs, for up to eight senders. The
/// packets of one sender never count for another, and every number from 0 to
/// 65535 is an ordinary sender.
///
/// A sender has at most one epoch open. Its packets may overtake each other, and
/// a copy of one does not count. A packet of another epoch drops the open one,
/// of which nothing is told, and opens its own.
///
/// ```
/// use yaqtumeer::{Collator, Frames, Obs, Writer};
///
/// // two packets of an epoch of 7, the second first, and between them an epoch of 0
/// let packet = |sender, n_obs| {
///     Obs { tow: 5000, wn: 2000, n_obs, observations: vec![] }.frame(Writer::new(sender)).unwrap()
/// };
/// let capture = [packet(7, 0x21), packet(0, 0x10), packet(7, 0x20)].concat();
///
/// let mut collator = Collator::growing();
/// let mut senders = vec![];
/// for frame in Frames::closed(&capture) {
///     if let Ok(Some(epoch)) = collator.feed(&frame) {
///         senders.push(epoch.sender);
///     }
/// }
/// assert_eq!(senders, [0, 7]);
/// ```
#[derive(Clone, Debug)]
pub struct Collator {
    state: [u8; STATE],
    grows: bool,
}

impl Collator {
    /// For the senders of a roster; frames of others are refused.
    ///
    /// Refused: [`Refusal::WrongRoster`], [`Refusal::SenderTwice`].
    ///
    /// ```
    /// use yaqtumeer::{Collator, Refusal};
    ///
    /// assert!(Collator::new(&[1228, 0]).is_ok());
    /// assert_eq!(Collator::new(&[]).unwrap_err(), Refusal::WrongRoster);
    /// assert_eq!(Collator::new(&[3, 3]).unwrap_err(), Refusal::SenderTwice);
    /// ```
    pub fn new(roster: &[u16]) -> Result<Collator, Refusal> {
        let mut state = [0; STATE];
        let told =
            unsafe { raw::sbp_collator(state.as_mut_ptr(), STATE, roster.as_ptr(), roster.len()) };
        answered(told).map(|()| Collator {
            state,
            grows: false,
        })
    }

    /// For the first eight senders of observation frames, as they come.
    ///
    /// ```
    /// use yaqtumeer::{Collator, Obs, Refusal};
    ///
    /// let mut collator = Collator::growing();
    /// let payload = [0, 0, 0, 0, 0, 0, 0x10];
    /// for sender in 0..8 {
    ///     assert!(collator.feed_content(Obs::KIND, sender, &payload).is_ok());
    /// }
    /// assert_eq!(collator.feed_content(Obs::KIND, 8, &payload), Err(Refusal::NotListed));
    /// ```
    pub fn growing() -> Collator {
        let mut state = [0; STATE];
        never_refused(unsafe { raw::sbp_growing(state.as_mut_ptr(), STATE) });
        Collator { state, grows: true }
    }

    /// The epoch that a frame ends, if any: it brings the last packet that the
    /// epoch lacked.
    ///
    /// Refused: [`Refusal::NotObs`], [`Refusal::WrongLength`],
    /// [`Refusal::NotListed`], [`Refusal::NoPackets`],
    /// [`Refusal::WrongCounter`], [`Refusal::CounterTwice`] (a copy: the open
    /// epoch has a packet of that counter already); such a frame changes nothing.
    /// A copy that comes after its epoch has ended opens one again, and is taken.
    ///
    /// ```
    /// use yaqtumeer::{Collator, Frames, Heartbeat, Refusal, Writer};
    ///
    /// let capture = Heartbeat { flags: 0 }.frame(Writer::new(7)).unwrap();
    /// let frame = Frames::closed(&capture).next().unwrap();
    /// assert_eq!(Collator::growing().feed(&frame), Err(Refusal::NotObs));
    /// ```
    pub fn feed(&mut self, frame: &Frame<'_>) -> Result<Option<Epoch>, Refusal> {
        self.feed_content(frame.kind, frame.sender, frame.payload)
    }

    /// The same of a frame's type, sender and payload.
    ///
    /// ```
    /// use yaqtumeer::{Collator, Obs, Refusal};
    ///
    /// let mut collator = Collator::new(&[7]).unwrap();
    /// let second_of_two = [0, 0, 0, 0, 0, 0, 0x21];
    /// assert_eq!(collator.feed_content(Obs::KIND, 7, &second_of_two), Ok(None));
    /// let copy = collator.feed_content(Obs::KIND, 7, &second_of_two);
    /// assert_eq!(copy, Err(Refusal::CounterTwice));
    /// let first = [0, 0, 0, 0, 0, 0, 0x20];
    /// assert_eq!(collator.feed_content(Obs::KIND, 8, &first), Err(Refusal::NotListed));
    /// let epoch = collator.feed_content(Obs::KIND, 7, &first).unwrap().unwrap();
    /// assert_eq!((epoch.sender, epoch.n), (7, 2));
    /// ```
    pub fn feed_content(
        &mut self,
        kind: u16,
        sender: u16,
        payload: &[u8],
    ) -> Result<Option<Epoch>, Refusal> {
        if self.grows {
            let told = unsafe { raw::sbp_enlist(self.state.as_mut_ptr(), STATE, kind, sender) };
            never_refused(told);
        }
        let mut row = [0; REPORT];
        let told = unsafe {
            raw::sbp_feed(
                self.state.as_mut_ptr(),
                STATE,
                kind,
                sender,
                payload.as_ptr(),
                payload.len(),
                row.as_mut_ptr(),
                REPORT,
            )
        };
        match told {
            1 => Ok(Some(epoch(&row))),
            other => answered(other).map(|()| None),
        }
    }
}

fn epoch(row: &[u8; REPORT]) -> Epoch {
    Epoch {
        sender: number(row, 0, 2) as u16,
        wn: number(row, 2, 2) as u16,
        tow: number(row, 4, 4) as u32,
        n: row[8],
        observations: number(row, 9, 2) as u16,
    }
}

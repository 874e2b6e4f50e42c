//! Why a call is refused.

use std::fmt;

macro_rules! refusals {
    ($($variant:ident = $number:literal, $name:literal: $sentence:literal;)*) => {
        /// Why a call is refused. Each reason has a number, which is what C
        /// programs get and what `sbplist` prints; a refused call has changed
        /// nothing.
        ///
        /// ```
        /// use yaqtumeer::{Heartbeat, Refusal};
        ///
        /// let refusal = Heartbeat::read(&[0, 0, 0]).unwrap_err();
        /// assert_eq!(refusal, Refusal::WrongLength);
        /// assert_eq!(refusal.to_string(), "the payload's length is wrong for its type");
        /// ```
        #[derive(Clone, Copy, Debug, PartialEq, Eq, Hash)]
        pub enum Refusal {
            $(#[doc = concat!($number, ": ", $sentence, ".")] $variant = $number,)*
        }

        impl Refusal {
            /// All of them, in the order of their numbers.
            ///
            /// ```
            /// use yaqtumeer::Refusal;
            ///
            /// for refusal in Refusal::ALL {
            ///     println!("{} {}: {refusal}", refusal.number(), refusal.name());
            /// }
            /// assert_eq!(Refusal::ALL.len(), 17);
            /// ```
            pub const ALL: [Refusal; [$($number),*].len()] = [$(Refusal::$variant),*];

            /// Its name, as C has it after `SBP_`.
            ///
            /// ```
            /// assert_eq!(yaqtumeer::Refusal::OutOfRange.name(), "OUT_OF_RANGE");
            /// ```
            pub fn name(self) -> &'static str {
                match self {
                    $(Refusal::$variant => $name,)*
                }
            }

            fn sentence(self) -> &'static str {
                match self {
                    $(Refusal::$variant => $sentence,)*
                }
            }
        }
    };
}

refusals! {
    TooLong = 11, "TOO_LONG": "the capture to list is longer than 65536 bytes";
    UnknownType = 21, "UNKNOWN_TYPE": "the type has no reading here";
    WrongLength = 22, "WRONG_LENGTH": "the payload's length is wrong for its type";
    OutOfRange = 23, "OUT_OF_RANGE": "a field is outside its range, or a text has a zero in it";
    NoSuchObservation = 25, "NO_SUCH_OBSERVATION": "the payload has no observation of that index";
    TooMuch = 31, "TOO_MUCH": "the payload to write is over 255 bytes, or has over 15 observations";
    NoRoom = 32, "NO_ROOM": "the buffer to write to is too short";
    PhaseOutOfRange = 33, "PHASE_OUT_OF_RANGE": "the carrier phase is outside its range";
    WrongRoster = 41, "WRONG_ROSTER": "the roster is empty or has more than eight senders";
    SenderTwice = 42, "SENDER_TWICE": "the roster names a sender twice";
    NotListed = 43, "NOT_LISTED": "the frame's sender is not on the roster";
    NoPackets = 44, "NO_PACKETS": "the observation frame says that its epoch has no packets";
    WrongCounter = 45, "WRONG_COUNTER": "the observation frame's counter is not below its number of packets";
    NotObs = 46, "NOT_OBS": "the frame is no observation frame";
    CounterTwice = 47, "COPY": "the observation frame's counter has come already in its sender's open epoch";
    ListShort = 51, "LIST_SHORT": "the list is shorter than the frames it has to hold";
    CaptureShort = 52, "CAPTURE_SHORT": "the capture is shorter than the position that its index has reached";
}

impl Refusal {
    /// Its number.
    ///
    /// ```
    /// assert_eq!(yaqtumeer::Refusal::OutOfRange.number(), 23);
    /// ```
    pub fn number(self) -> u8 {
        self as u8
    }

    /// The refusal that the library told by its number.
    pub(crate) fn told(number: u8) -> Refusal {
        let named = Refusal::ALL.into_iter().find(|r| r.number() == number);
        named.unwrap_or_else(|| unreachable!("the library refuses by no other number: {number}"))
    }
}

/// What the library answered: 0, or the number of a refusal.
pub(crate) fn answered(number: u8) -> Result<(), Refusal> {
    match number {
        0 => Ok(()),
        refused => Err(Refusal::told(refused)),
    }
}

/// Of a call that lends all the room that the library asks for, and has no
/// other refusal.
pub(crate) fn never_refused(number: u8) {
    answered(number).expect("the library has the rows and the state that this crate knows");
}

impl fmt::Display for Refusal {
    fn fmt(&self, f: &mut fmt::Formatter<'_>) -> fmt::Result {
        f.write_str(self.sentence())
    }
}

impl std::error::Error for Refusal {}

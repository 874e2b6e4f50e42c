//! The messages: a struct each, and one type over all of them.

#[macro_use]
mod macros;
mod logging;
mod navigation;
mod observation;
mod orbits;
mod settings;
mod system;

pub use logging::*;
pub use navigation::*;
pub use observation::*;
pub use orbits::*;
pub use settings::*;
pub use system::*;

use crate::refusal::Refusal;
use crate::writer::Writer;

macro_rules! messages {
    ($($name:ident)*) => {
        /// A message of any of the types that have a reading here.
        ///
        /// `==` compares doubles as numbers: a NaN equals nothing. Compare
        /// [`row`](Message::row)s for equality to the bit.
        ///
        /// ```
        /// use yaqtumeer::{Frames, Heartbeat, Log, Message, Writer};
        ///
        /// let log = Log { level: 6, text: b"ready".to_vec(), padding: 0 };
        /// let beat = Heartbeat { flags: 0 };
        /// let recorder = Writer::new(1228);
        /// let capture = [log.frame(recorder).unwrap(), beat.frame(recorder).unwrap()].concat();
        /// for frame in Frames::closed(&capture) {
        ///     match frame.message() {
        ///         Ok(Message::Log(log)) => println!("{}", String::from_utf8_lossy(&log.text)),
        ///         Ok(other) => println!("{}", other.name()),
        ///         Err(refusal) => println!("type {:#06x}: {refusal}", frame.kind),
        ///     }
        /// }
        /// ```
        #[derive(Clone, Debug, PartialEq)]
        pub enum Message {
            $(#[doc = concat!("See [`", stringify!($name), "`].")] $name($name),)*
        }

        impl Message {
            /// The type numbers of all messages.
            ///
            /// ```
            /// use yaqtumeer::{Message, PosLlh};
            ///
            /// assert_eq!(Message::KINDS.len(), 24);
            /// assert!(Message::KINDS.contains(&PosLlh::KIND));
            /// ```
            pub const KINDS: [u16; [$($name::KIND),*].len()] = [$($name::KIND),*];

            /// Reads a payload of that type.
            ///
            /// Refused: [`Refusal::UnknownType`], [`Refusal::WrongLength`],
            /// [`Refusal::OutOfRange`].
            ///
            /// ```
            /// use yaqtumeer::{Message, ReadByIndexReq, Refusal};
            ///
            /// let asked = Message::ReadByIndexReq(ReadByIndexReq { index: 7 });
            /// assert_eq!(Message::read(0x00a2, &[7, 0]), Ok(asked));
            /// assert_eq!(Message::read(0x00a3, &[7, 0]), Err(Refusal::UnknownType));
            /// ```
            pub fn read(kind: u16, payload: &[u8]) -> Result<Message, Refusal> {
                match kind {
                    $($name::KIND => $name::read(payload).map(Message::$name),)*
                    _ => Err(Refusal::UnknownType),
                }
            }

            /// Its type number.
            ///
            /// ```
            /// use yaqtumeer::{Message, Startup};
            ///
            /// assert_eq!(Message::from(Startup { reserved: 0 }).kind(), 0xff00);
            /// ```
            pub fn kind(&self) -> u16 {
                match self {
                    $(Message::$name(_) => $name::KIND,)*
                }
            }

            /// Its name in the published protocol.
            ///
            /// ```
            /// use yaqtumeer::{Message, Startup};
            ///
            /// assert_eq!(Message::from(Startup { reserved: 0 }).name(), "MSG_STARTUP");
            /// ```
            pub fn name(&self) -> &'static str {
                match self {
                    $(Message::$name(_) => $name::NAME,)*
                }
            }

            /// All of its numbers in order, those of a tail after the others:
            /// of one type, equal rows are equal to the bit.
            ///
            /// ```
            /// use yaqtumeer::{BasePosLlh, Message};
            ///
            /// let nowhere = BasePosLlh { lat: f64::NAN, lon: -0.0, height: 0.0 };
            /// let message = Message::from(nowhere);
            /// assert_ne!(message, message.clone());
            /// assert_eq!(message.row(), message.clone().row());
            /// ```
            pub fn row(&self) -> Vec<u64> {
                match self {
                    $(Message::$name(message) => message.row().to_vec(),)*
                }
            }

            /// Writes it as a frame at the buffer's start, and says the frame's
            /// length. The [`Writer`] says who sends it.
            ///
            /// Refused: [`Refusal::OutOfRange`], [`Refusal::TooMuch`],
            /// [`Refusal::NoRoom`]; then nothing is written.
            ///
            /// ```
            /// use yaqtumeer::{Message, SettingsSave, Writer};
            ///
            /// let mut out = [0; 8];
            /// let save = Message::from(SettingsSave {});
            /// assert_eq!(save.write(Writer::new(0x1234), &mut out), Ok(8));
            /// assert_eq!(out[..6], [0x55, 0xa1, 0x00, 0x42, 0x00, 0]);
            /// ```
            pub fn write(&self, writer: Writer, out: &mut [u8]) -> Result<usize, Refusal> {
                match self {
                    $(Message::$name(message) => message.write(writer, out),)*
                }
            }
        }

        $(
            impl From<$name> for Message {
                fn from(message: $name) -> Message {
                    Message::$name(message)
                }
            }
        )*
    };
}

messages! {
    GpsTime Dops PosEcef PosLlh BaselineEcef VelEcef BaselineNed VelNed BaselineHeading
    BasePosLlh BasePosEcef Obs EphemerisGps EphemerisSbas EphemerisGlo Iono SvConfigurationGps
    GroupDelay Log SettingsSave ReadByIndexDone ReadByIndexReq Startup Heartbeat
}

impl Message {
    /// The frame that [`write`](Message::write) writes, in memory of its own.
    ///
    /// ```
    /// use yaqtumeer::{Frames, Message, Startup, Writer};
    ///
    /// let started = Message::from(Startup { reserved: 0 });
    /// let capture = started.frame(Writer::new(1228)).unwrap();
    /// assert_eq!(Frames::closed(&capture).next().unwrap().message(), Ok(started));
    /// ```
    pub fn frame(&self, writer: Writer) -> Result<Vec<u8>, Refusal> {
        crate::writing::framed(|out| self.write(writer, out))
    }
}

//! Who writes a frame, and who is named as its sender.

/// A recorder that writes frames under its own number.
///
/// A frame for which no sender is [`named`](Writer::named) goes out under that
/// number; but a [`ReadByIndexReq`](crate::ReadByIndexReq), which devices answer
/// from 0x42 alone, and a [`SettingsSave`](crate::SettingsSave) go out as 0x42
/// then. [`write_frame`](crate::write_frame) goes by the type that it is given
/// in the same way.
///
/// ```
/// use yaqtumeer::{Frames, Heartbeat, ReadByIndexReq, Writer};
///
/// let recorder = Writer::new(1228);
/// let beat = Heartbeat { flags: 0 };
/// let capture = [
///     beat.frame(recorder).unwrap(),
///     beat.frame(recorder.named(0)).unwrap(), // a rover's, which is passed on
///     ReadByIndexReq { index: 7 }.frame(recorder).unwrap(),
/// ]
/// .concat();
/// let senders: Vec<u16> = Frames::closed(&capture).map(|frame| frame.sender).collect();
/// assert_eq!(senders, [1228, 0, 0x42]);
/// ```
#[derive(Clone, Copy, Debug, PartialEq, Eq, Hash)]
pub struct Writer {
    own: u16,
    named: Option<u16>,
}

impl Writer {
    /// A recorder with its own number, which may be any.
    ///
    /// ```
    /// use yaqtumeer::{Startup, Writer};
    ///
    /// const RECORDER: Writer = Writer::new(1228);
    /// assert_eq!(Startup { reserved: 0 }.frame(RECORDER).unwrap()[3..5], [0xcc, 0x04]);
    /// ```
    pub const fn new(own: u16) -> Writer {
        Writer { own, named: None }
    }

    /// The same recorder with a sender named, for one frame. It is used as it
    /// is, whatever the type, 0 and 0x42 too.
    ///
    /// ```
    /// use yaqtumeer::{SettingsSave, Writer};
    ///
    /// let recorder = Writer::new(1228);
    /// assert_eq!(SettingsSave {}.frame(recorder.named(7)).unwrap()[3..5], [7, 0]);
    /// ```
    pub const fn named(self, sender: u16) -> Writer {
        let named = Some(sender);
        Writer { named, ..self }
    }

    /// As the library takes it: the own number, and the sender, of which one
    /// above 65535 means none named.
    pub(crate) fn numbers(self) -> (u16, u32) {
        (self.own, self.named.map_or(0x10000, u32::from))
    }
}

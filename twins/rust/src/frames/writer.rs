//! Who writes, and the number that a frame goes out under (request P6).

/// 003: devices obey settings from this sender alone.
const CLIENT: u16 = 0x42;

/// SETTINGS_SAVE, by the house rule, and READ_BY_INDEX_REQ.
const AS_CLIENT: [u16; 2] = [0x00A1, 0x00A2];

/// A recorder's own number, and the sender that it is given for a frame.
#[derive(Clone, Copy, Debug, PartialEq, Eq)]
pub struct Writer {
    pub own: u16,
    pub given: Option<u16>,
}

impl Writer {
    /// Given no sender.
    pub const fn new(own: u16) -> Writer {
        Writer { own, given: None }
    }

    /// The same recorder, given a sender.
    pub const fn named(self, sender: u16) -> Writer {
        Writer {
            given: Some(sender),
            ..self
        }
    }

    pub(super) fn sender(self, msg_type: u16) -> u16 {
        match self.given {
            Some(sender) => sender,
            None if AS_CLIENT.contains(&msg_type) => CLIENT,
            None => self.own,
        }
    }
}

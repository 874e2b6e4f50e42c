//! Who is to write a frame.

use twin::frames::Writer;
use twin::gen::Rng;

/// Given no sender these go out as 0x42.
pub const AS_CLIENT: [u16; 2] = [0x00A1, 0x00A2];

/// The recorder's own number, and the sender as C takes it: above 65535 none
/// is given.
#[derive(Clone, Copy)]
pub struct Who {
    own: u16,
    sender: u32,
}

/// Where a frame's number comes from.
#[derive(Clone, Copy, PartialEq, Eq, PartialOrd, Ord)]
pub enum Source {
    Given,
    Own,
    Client,
}

impl Source {
    pub fn name(self) -> &'static str {
        match self {
            Source::Given => "the sender given",
            Source::Own => "the own number",
            Source::Client => "0x42",
        }
    }
}

impl Who {
    pub fn any(rng: &mut Rng) -> Who {
        let sender = match rng.below(4) {
            0 => u32::from(rng.word() as u16),
            1 => rng.word() as u32,
            _ => rng.pick(&[0, 0x42, 1228, 65535, 65536, u32::MAX]),
        };
        Who {
            own: own(rng),
            sender,
        }
    }

    /// Given no sender.
    pub fn unnamed(rng: &mut Rng) -> Who {
        let any = rng.between(65536, u32::MAX as usize) as u32;
        Who {
            own: own(rng),
            sender: rng.pick(&[65536, 65536 + 7, u32::MAX, any]),
        }
    }

    pub fn writer(self) -> Writer {
        Writer {
            own: self.own,
            given: u16::try_from(self.sender).ok(),
        }
    }

    /// As a request has it.
    pub fn bytes(self) -> Vec<u8> {
        [&self.own.to_le_bytes()[..], &self.sender.to_le_bytes()].concat()
    }

    /// For a frame of a type; LOG's question has none.
    pub fn source(self, kind: Option<u16>) -> Source {
        match (self.writer().given, kind) {
            (Some(_), _) => Source::Given,
            (None, Some(kind)) if AS_CLIENT.contains(&kind) => Source::Client,
            (None, _) => Source::Own,
        }
    }
}

fn own(rng: &mut Rng) -> u16 {
    let any = rng.word() as u16;
    rng.pick(&[0, 0x42, 1228, 65535, any])
}

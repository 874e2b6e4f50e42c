//! What the generator knows of each type that has a reading, by 003's offsets.

#[derive(Clone, Copy)]
pub(super) struct Layout {
    pub msg_type: u16,
    /// Of OBS and LOG the least.
    pub length: usize,
    /// Where doubles begin, and how many follow one another.
    pub doubles: &'static [(usize, usize)],
    /// Where flags, the last byte, has a fix mode.
    pub highest_mode: Option<u8>,
}

pub(super) const LAYOUTS: [Layout; 24] = [
    of(0x0100, 11, &[]),
    of(0x0206, 14, &[]),
    of(0x0200, 32, &[(4, 3)]).mode(2),
    of(0x0201, 34, &[(4, 3)]).mode(2),
    of(0x0202, 20, &[]).mode(1),
    of(0x0204, 20, &[]),
    of(0x0203, 22, &[]).mode(1),
    of(0x0205, 22, &[]),
    of(0x0207, 10, &[]).mode(1),
    of(0x0044, 24, &[(0, 3)]),
    of(0x0048, 24, &[(0, 3)]),
    of(0x0049, 7, &[]),
    of(0x0081, 185, &[(10, 1), (24, 19)]),
    of(0x0082, 112, &[(10, 1), (24, 11)]),
    of(0x0083, 112, &[(10, 1), (24, 11)]),
    of(0x0090, 70, &[(6, 8)]),
    of(0x0091, 10, &[]),
    of(0x0092, 14, &[]),
    of(0x0401, 1, &[]),
    of(0x00A1, 0, &[]),
    of(0x00A6, 0, &[]),
    of(0x00A2, 2, &[]),
    of(0xFF00, 4, &[]),
    of(0xFFFF, 4, &[]),
];

/// Every type that has a reading.
pub const TYPES: [u16; LAYOUTS.len()] = {
    let mut types = [0; LAYOUTS.len()];
    let mut at = 0;
    while at < LAYOUTS.len() {
        types[at] = LAYOUTS[at].msg_type;
        at += 1;
    }
    types
};

/// Ephemerides of 003 that are out of use and have no reading.
pub const RETIRED: [u16; 2] = [0x0047, 0x0080];

pub(super) fn known(msg_type: u16) -> Option<Layout> {
    LAYOUTS.into_iter().find(|l| l.msg_type == msg_type)
}

const fn of(msg_type: u16, length: usize, doubles: &'static [(usize, usize)]) -> Layout {
    Layout {
        msg_type,
        length,
        doubles,
        highest_mode: None,
    }
}

impl Layout {
    const fn mode(self, highest: u8) -> Layout {
        Layout {
            highest_mode: Some(highest),
            ..self
        }
    }
}

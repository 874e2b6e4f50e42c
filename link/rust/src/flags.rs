//! What the flags of a position or a baseline mean. Messages differ in their
//! tables, so each asks the library for its own type.

use crate::raw;

/// How a position or a baseline was found.
///
/// ```
/// use yaqtumeer::{Fix, PosEcef, PosLlh};
///
/// // the two position messages number their fix modes differently
/// assert_eq!(PosEcef { flags: 1, ..PosEcef::default() }.fix(), Fix::Float);
/// assert_eq!(PosLlh { flags: 1, ..PosLlh::default() }.fix(), Fix::Fixed);
/// ```
#[derive(Clone, Copy, Debug, PartialEq, Eq, Hash)]
pub enum Fix {
    /// By a single receiver.
    SinglePoint,
    /// Relative to a base, the carrier phase ambiguities as real numbers.
    Float,
    /// Relative to a base, the ambiguities as integers.
    Fixed,
    /// A mode that the message's table leaves out. No message that was read
    /// or can be written has it.
    Reserved,
}

pub(crate) fn fix(kind: u16, flags: u8) -> Fix {
    match unsafe { raw::sbp_fix(kind, flags) } {
        0 => Fix::SinglePoint,
        1 => Fix::Float,
        2 => Fix::Fixed,
        _ => Fix::Reserved,
    }
}

pub(crate) fn raim_available(kind: u16, flags: u8) -> bool {
    unsafe { raw::sbp_raim_available(kind, flags) == 1 }
}

pub(crate) fn raim_repaired(kind: u16, flags: u8) -> bool {
    unsafe { raw::sbp_raim_repaired(kind, flags) == 1 }
}

pub(crate) fn above_sea(kind: u16, flags: u8) -> bool {
    unsafe { raw::sbp_above_sea(kind, flags) == 1 }
}

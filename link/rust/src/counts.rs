//! What becomes of the bytes of a capture.

use std::ops::{Add, AddAssign};

use crate::raw;
use crate::refusal::never_refused;
use crate::rows::number;

const TOTALS: usize = 32;

/// The bytes of a capture that are in frames, and those passed over for each
/// reason. Of a complete capture they add up to its length.
///
/// ```
/// let counts = yaqtumeer::totals(&[0x00, 0x55, 0x01]);
/// assert_eq!((counts.framed, counts.junk, counts.bad, counts.short), (0, 2, 0, 1));
/// ```
#[derive(Clone, Copy, Debug, Default, PartialEq, Eq)]
pub struct Counts {
    /// In frames.
    pub framed: u64,
    /// Not the byte 0x55, with which a frame begins.
    pub junk: u64,
    /// 0x55 where the CRC does not agree.
    pub bad: u64,
    /// 0x55 with too few bytes after it for a whole frame.
    pub short: u64,
}

impl Counts {
    /// All of them together.
    ///
    /// ```
    /// let capture = [0x55; 100];
    /// assert_eq!(yaqtumeer::totals(&capture).total(), 100);
    /// ```
    pub fn total(&self) -> u64 {
        self.framed + self.junk + self.bad + self.short
    }
}

impl Add for Counts {
    type Output = Counts;

    /// Of two parts of a capture together.
    ///
    /// ```
    /// use yaqtumeer::totals;
    ///
    /// assert_eq!((totals(b"no") + totals(b"frame")).junk, 7);
    /// ```
    fn add(self, other: Counts) -> Counts {
        Counts {
            framed: self.framed + other.framed,
            junk: self.junk + other.junk,
            bad: self.bad + other.bad,
            short: self.short + other.short,
        }
    }
}

impl AddAssign for Counts {
    /// Counts of a further part.
    ///
    /// ```
    /// let mut counts = yaqtumeer::Counts::default();
    /// counts += yaqtumeer::totals(b"junk");
    /// assert_eq!(counts.junk, 4);
    /// ```
    fn add_assign(&mut self, other: Counts) {
        *self = *self + other;
    }
}

/// The counts of a complete capture in one call, which is faster than going
/// from frame to frame.
///
/// ```
/// use yaqtumeer::{SettingsSave, Writer, totals};
///
/// let mut capture = SettingsSave {}.frame(Writer::new(1228)).unwrap();
/// capture.extend(b"\r\n");
/// let counts = totals(&capture);
/// assert_eq!((counts.framed, counts.junk), (8, 2));
/// ```
pub fn totals(capture: &[u8]) -> Counts {
    let mut row = [0; TOTALS];
    let told =
        unsafe { raw::sbp_totals(capture.as_ptr(), capture.len(), row.as_mut_ptr(), TOTALS) };
    never_refused(told);
    Counts {
        framed: number(&row, 0, 8),
        junk: number(&row, 8, 8),
        bad: number(&row, 16, 8),
        short: number(&row, 24, 8),
    }
}

//! The carrier phase of an observation.

use crate::raw;
use crate::refusal::{Refusal, answered};

/// The two fields in which an observation carries its carrier phase. The phase
/// in 1/256 cycle is 256 times the whole cycles plus the part, which is added
/// for negative phases too.
///
/// ```
/// use yaqtumeer::PhaseParts;
///
/// assert_eq!(PhaseParts { l_i: -3, l_f: 128 }.phase(), -640);
/// assert_eq!(PhaseParts::of(-640), Ok(PhaseParts { l_i: -3, l_f: 128 }));
/// ```
#[derive(Clone, Copy, Debug, Default, PartialEq, Eq, Hash)]
pub struct PhaseParts {
    /// Whole cycles.
    pub l_i: i32,
    /// The rest in 1/256 cycle, never negative.
    pub l_f: u8,
}

impl PhaseParts {
    /// The one pair of a phase in 1/256 cycle.
    ///
    /// Refused: [`Refusal::PhaseOutOfRange`] outside -549755813888 ..= 549755813887.
    ///
    /// ```
    /// use yaqtumeer::{PhaseParts, Refusal};
    ///
    /// assert_eq!(PhaseParts::of(-1), Ok(PhaseParts { l_i: -1, l_f: 255 }));
    /// assert_eq!(PhaseParts::of(549755813888), Err(Refusal::PhaseOutOfRange));
    /// ```
    pub fn of(phase: i64) -> Result<PhaseParts, Refusal> {
        let (mut l_i, mut l_f) = (0, 0);
        let told = unsafe { raw::sbp_phase_parts(phase, &mut l_i, &mut l_f) };
        answered(told).map(|()| PhaseParts { l_i, l_f })
    }

    /// The phase in 1/256 cycle.
    ///
    /// ```
    /// assert_eq!(yaqtumeer::PhaseParts { l_i: 2, l_f: 1 }.phase(), 513);
    /// ```
    pub fn phase(self) -> i64 {
        unsafe { raw::sbp_carrier_phase(self.l_i, self.l_f) }
    }
}

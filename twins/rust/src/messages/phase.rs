//! Carrier phase in 1/256 cycle: 256 x L.i + L.f, with L.f never negative.

use crate::numbers::{No, PHASE_OUT_OF_RANGE};

pub const PHASE_MIN: i64 = -549_755_813_888;
pub const PHASE_MAX: i64 = 549_755_813_887;

pub fn phase_from_parts(l_i: i32, l_f: u8) -> i64 {
    256 * i64::from(l_i) + i64::from(l_f)
}

/// The one pair (L.i, L.f); Euclid's division keeps L.f from 0 to 255.
pub fn phase_to_parts(phase: i64) -> Result<(i32, u8), No> {
    if !(PHASE_MIN..=PHASE_MAX).contains(&phase) {
        return Err(PHASE_OUT_OF_RANGE);
    }
    let l_i = i32::try_from(phase.div_euclid(256)).map_err(|_| PHASE_OUT_OF_RANGE)?;
    let l_f = u8::try_from(phase.rem_euclid(256)).map_err(|_| PHASE_OUT_OF_RANGE)?;
    Ok((l_i, l_f))
}

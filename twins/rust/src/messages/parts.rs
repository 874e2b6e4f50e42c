//! What several messages of 003 section 6.3 have in common.

use super::group::group;
use super::Double;

group!(
    /// 003's sid.
    Satellite { sat: u16, code: u8, reserved: u8 }
);

group!(TimeOfWeek { tow: u32, wn: u16 });

group!(
    /// What every ephemeris begins with.
    EphemerisCommon {
        sid: Satellite,
        toe: TimeOfWeek,
        ura: Double,
        fit_interval: u32,
        valid: u8,
        health: u8,
    }
);

group!(
    /// 003's double[3].
    Vector { x: Double, y: Double, z: Double }
);

group!(Motion {
    pos: Vector,
    vel: Vector,
    acc: Vector
});

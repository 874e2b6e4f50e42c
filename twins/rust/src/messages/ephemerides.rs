//! The ephemerides of 003 section 6.3 that request P2 asks for.

use super::fixed::{any_value, fixed};
use super::{Double, EphemerisCommon, Motion, TimeOfWeek};

fixed!(
    EphemerisGps, 0x0081, 185,
    {
        common: EphemerisCommon,
        tgd: Double,
        c_rs: Double,
        c_rc: Double,
        c_uc: Double,
        c_us: Double,
        c_ic: Double,
        c_is: Double,
        dn: Double,
        m0: Double,
        ecc: Double,
        sqrta: Double,
        omega0: Double,
        omegadot: Double,
        w: Double,
        inc: Double,
        inc_dot: Double,
        af0: Double,
        af1: Double,
        af2: Double,
        toc: TimeOfWeek,
        iode: u8,
        iodc: u16,
    },
    any_value
);

fixed!(
    EphemerisSbas, 0x0082, 112,
    { common: EphemerisCommon, motion: Motion, a_gf0: Double, a_gf1: Double },
    any_value
);

fixed!(
    EphemerisGlo, 0x0083, 112,
    { common: EphemerisCommon, gamma: Double, tau: Double, motion: Motion },
    any_value
);

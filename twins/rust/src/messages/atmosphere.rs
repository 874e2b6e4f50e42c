//! 003 section 6.3: the ionosphere, which satellites send L2C, group delays.

use super::fixed::{any_value, fixed};
use super::{Double, TimeOfWeek};

fixed!(
    Iono, 0x0090, 70,
    {
        t_nmct: TimeOfWeek,
        a0: Double,
        a1: Double,
        a2: Double,
        a3: Double,
        b0: Double,
        b1: Double,
        b2: Double,
        b3: Double,
    },
    any_value
);

fixed!(
    SvConfigurationGps, 0x0091, 10,
    { t_nmct: TimeOfWeek, l2c_mask: u32 },
    any_value
);

fixed!(
    /// Its delays are signed.
    GroupDelay, 0x0092, 14,
    { t_op: TimeOfWeek, prn: u8, valid: u8, tgd: i16, isc_l1ca: i16, isc_l2c: i16 },
    any_value
);

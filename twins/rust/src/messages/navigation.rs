//! 003 section 6.2. Ranges are document 01's.

use super::fixed::{any_value, fixed};
use super::Double;

/// Fix mode is the low three bits of flags.
fn fix_mode_up_to(flags: u8, highest: u8) -> bool {
    flags & 7 <= highest
}

fixed!(
    GpsTime, 0x0100, 11,
    { wn: u16, tow: u32, ns: i32, flags: u8 },
    |m| (-500_000..=500_000).contains(&m.ns)
);

fixed!(
    Dops, 0x0206, 14,
    { tow: u32, gdop: u16, pdop: u16, tdop: u16, hdop: u16, vdop: u16 },
    any_value
);

fixed!(
    PosEcef, 0x0200, 32,
    { tow: u32, x: Double, y: Double, z: Double, accuracy: u16, n_sats: u8, flags: u8 },
    |m| fix_mode_up_to(m.flags, 2)
);

fixed!(
    PosLlh, 0x0201, 34,
    {
        tow: u32,
        lat: Double,
        lon: Double,
        height: Double,
        h_accuracy: u16,
        v_accuracy: u16,
        n_sats: u8,
        flags: u8,
    },
    |m| fix_mode_up_to(m.flags, 2)
);

fixed!(
    BaselineEcef, 0x0202, 20,
    { tow: u32, x: i32, y: i32, z: i32, accuracy: u16, n_sats: u8, flags: u8 },
    |m| fix_mode_up_to(m.flags, 1)
);

fixed!(
    BaselineNed, 0x0203, 22,
    {
        tow: u32,
        n: i32,
        e: i32,
        d: i32,
        h_accuracy: u16,
        v_accuracy: u16,
        n_sats: u8,
        flags: u8,
    },
    |m| fix_mode_up_to(m.flags, 1)
);

fixed!(
    /// Its flags are reserved, so they take any value.
    VelEcef, 0x0204, 20,
    { tow: u32, x: i32, y: i32, z: i32, accuracy: u16, n_sats: u8, flags: u8 },
    any_value
);

fixed!(
    /// Its flags are reserved, so they take any value.
    VelNed, 0x0205, 22,
    {
        tow: u32,
        n: i32,
        e: i32,
        d: i32,
        h_accuracy: u16,
        v_accuracy: u16,
        n_sats: u8,
        flags: u8,
    },
    any_value
);

fixed!(
    BaselineHeading, 0x0207, 10,
    { tow: u32, heading: u32, n_sats: u8, flags: u8 },
    |m| fix_mode_up_to(m.flags, 1)
);

//! Ephemerides and what delays signals both ways, field by field: where each
//! stands in the published tables, with bytes of which no two are alike and with
//! doubles whose bits are easily lost.

#[macro_use]
mod common;

use common::{PATTERNS, WRITER};
use yaqtumeer::*;

/// Payloads of so many bytes, the doubles at these offsets: with bytes that
/// count up, with all bits the other way, and with each pattern in each double.
fn payloads(length: usize, doubles: &[usize]) -> Vec<Vec<u8>> {
    let up: Vec<u8> = (0..length).map(|i| (0x81 + i) as u8).collect();
    let other = up.iter().map(|byte| !byte).collect();
    let mut all = vec![up.clone(), other];
    for turn in 0..PATTERNS.len() {
        let mut payload = up.clone();
        for (&at, bits) in doubles.iter().zip(PATTERNS.iter().cycle().skip(turn)) {
            payload[at..at + 8].copy_from_slice(&bits.to_le_bytes());
        }
        all.push(payload);
    }
    all
}

/// A field's number in a row, by its bytes and whether it has a sign.
fn number(bytes: &[u8], signed: bool) -> u64 {
    let negative = signed && bytes[bytes.len() - 1] >= 0x80;
    let mut all = [if negative { 0xff } else { 0 }; 8];
    all[..bytes.len()].copy_from_slice(bytes);
    u64::from_le_bytes(all)
}

/// A message by its table: length, and offset, format and place of each field.
macro_rules! table {
    ($name:ident = $kind:literal, $published:literal, $length:literal, {
        $($at:literal $format:ident $first:ident $(.$then:ident)* $([$index:literal])?,)*
    }) => {{
        let mut end = 0;
        let mut doubles = Vec::new();
        $(
            same!("an offset after the one before", $at, end);
            end += size_of::<$format>();
            if stringify!($format) == "f64" {
                doubles.push($at);
            }
        )*
        same!("the length", $length, end);
        for payload in payloads($length, &doubles) {
            let read = $name::read(&payload).unwrap();
            let mut written = $name::default();
            let mut row = Vec::new();
            $(
                let field: $format = read.$first$(.$then)*$([$index])?;
                let bytes = field.to_le_bytes();
                let what = concat!($published, " at ", $at);
                same!(what, bytes[..], payload[$at..$at + bytes.len()]);
                written.$first$(.$then)*$([$index])? = field;
                row.push(number(&bytes, stringify!($format).starts_with('i')));
            )*
            same!("FIELDS", $name::FIELDS, row.len());
            message!(written, $name = $kind, $published, payload, row);
        }
    }};
}

/// An ephemeris by its table, after what all of them begin with.
macro_rules! ephemeris {
    ($name:ident = $kind:literal, $published:literal, $length:literal, { $($rest:tt)* }) => {
        table!($name = $kind, $published, $length, {
            0 u16 common.sid.sat,
            2 u8 common.sid.code,
            3 u8 common.sid.reserved,
            4 u32 common.toe.tow,
            8 u16 common.toe.wn,
            10 f64 common.ura,
            18 u32 common.fit_interval,
            22 u8 common.valid,
            23 u8 common.health,
            $($rest)*
        })
    };
}

#[test]
fn ephemeris_gps() {
    ephemeris!(EphemerisGps = 0x0081, "MSG_EPHEMERIS_GPS", 185, {
        24 f64 tgd,
        32 f64 c_rs,
        40 f64 c_rc,
        48 f64 c_uc,
        56 f64 c_us,
        64 f64 c_ic,
        72 f64 c_is,
        80 f64 dn,
        88 f64 m0,
        96 f64 ecc,
        104 f64 sqrta,
        112 f64 omega0,
        120 f64 omegadot,
        128 f64 w,
        136 f64 inc,
        144 f64 inc_dot,
        152 f64 af0,
        160 f64 af1,
        168 f64 af2,
        176 u32 toc.tow,
        180 u16 toc.wn,
        182 u8 iode,
        183 u16 iodc,
    });
}

#[test]
fn ephemeris_sbas() {
    ephemeris!(EphemerisSbas = 0x0082, "MSG_EPHEMERIS_SBAS", 112, {
        24 f64 motion.pos[0],
        32 f64 motion.pos[1],
        40 f64 motion.pos[2],
        48 f64 motion.vel[0],
        56 f64 motion.vel[1],
        64 f64 motion.vel[2],
        72 f64 motion.acc[0],
        80 f64 motion.acc[1],
        88 f64 motion.acc[2],
        96 f64 a_gf0,
        104 f64 a_gf1,
    });
}

#[test]
fn ephemeris_glo() {
    ephemeris!(EphemerisGlo = 0x0083, "MSG_EPHEMERIS_GLO", 112, {
        24 f64 gamma,
        32 f64 tau,
        40 f64 motion.pos[0],
        48 f64 motion.pos[1],
        56 f64 motion.pos[2],
        64 f64 motion.vel[0],
        72 f64 motion.vel[1],
        80 f64 motion.vel[2],
        88 f64 motion.acc[0],
        96 f64 motion.acc[1],
        104 f64 motion.acc[2],
    });
}

#[test]
fn iono() {
    table!(Iono = 0x0090, "MSG_IONO", 70, {
        0 u32 t_nmct.tow,
        4 u16 t_nmct.wn,
        6 f64 a[0],
        14 f64 a[1],
        22 f64 a[2],
        30 f64 a[3],
        38 f64 b[0],
        46 f64 b[1],
        54 f64 b[2],
        62 f64 b[3],
    });
}

#[test]
fn sv_configuration_gps() {
    table!(SvConfigurationGps = 0x0091, "MSG_SV_CONFIGURATION_GPS", 10, {
        0 u32 t_nmct.tow,
        4 u16 t_nmct.wn,
        6 u32 l2c_mask,
    });
}

#[test]
fn group_delay() {
    table!(GroupDelay = 0x0092, "MSG_GROUP_DELAY", 14, {
        0 u32 t_op.tow,
        4 u16 t_op.wn,
        6 u8 prn,
        7 u8 valid,
        8 i16 tgd,
        10 i16 isc_l1ca,
        12 i16 isc_l2c,
    });
}

#[test]
fn group_delays_of_either_sign() {
    for tgd in [i16::MIN, -1, 0, 1, i16::MAX] {
        let delay = GroupDelay {
            tgd,
            isc_l2c: !tgd,
            ..GroupDelay::default()
        };
        let frame = delay.frame(WRITER).unwrap();
        same!("tgd", frame[14..16], tgd.to_le_bytes());
        same!("isc_l2c", frame[18..20], (!tgd).to_le_bytes());
        same!("its row", delay.row()[4], i64::from(tgd) as u64);
        same!("read back", GroupDelay::read(&frame[6..20]), Ok(delay));
    }
}

/// A part's own row is its run of the message's.
#[test]
fn parts() {
    let payload: Vec<u8> = (0..112).collect();
    let orbit = EphemerisGlo::read(&payload).unwrap();
    let row = orbit.row();
    same!("sid", orbit.common.sid.row(), row[..3]);
    same!("toe", orbit.common.toe.row(), row[3..5]);
    same!("common", orbit.common.row(), row[..9]);
    same!("motion", orbit.motion.row(), row[11..]);
    same!("FIELDS of sid", Satellite::FIELDS, 3);
    same!("FIELDS of toe", TimeOfWeek::FIELDS, 2);
    same!("FIELDS of common", EphemerisCommon::FIELDS, 9);
    same!("FIELDS of motion", Motion::FIELDS, 9);
}

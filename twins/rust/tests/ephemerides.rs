//! The messages of request P2: each field by its name at 003's offset, rows,
//! both round trips, and lengths one off.

use twin::fast::{crc_table, read_row, write_row};
use twin::frames::Writer;
use twin::gen::{valid, Rng, RETIRED};
use twin::messages::*;

const OURS: Writer = Writer::new(513);

/// What stands at an offset, as a field of 003's format and as its number.
macro_rules! formats {
    ($($format:ident $kind:ty, $wide:ty;)*) => {$(
        fn $format(payload: &[u8], offset: usize) -> ($kind, u64) {
            let bytes = &payload[offset..offset + size_of::<$kind>()];
            let value = <$kind>::from_le_bytes(bytes.try_into().unwrap());
            (value, <$wide>::from(value) as u64)
        }
    )*};
}

formats!(u8 u8, u64; u16 u16, u64; u32 u32, u64; s16 i16, i64;);

fn double(payload: &[u8], offset: usize) -> (Double, u64) {
    let bytes = payload[offset..offset + 8].try_into().unwrap();
    let bits = u64::from_le_bytes(bytes);
    (Double { bits }, bits)
}

/// Each byte has a value of its own, so that each field has: in the first the
/// high bits of the front are 0, in the second 1. Then bits as the generator
/// has them.
fn payloads(msg_type: u16, length: u8) -> Vec<Vec<u8>> {
    let mut rng = Rng::new(6);
    let mut all = vec![
        (1..=length).collect::<Vec<u8>>(),
        (0..length).map(|b| 255 - b).collect(),
    ];
    all.extend((0..500).map(|_| valid(&mut rng, msg_type)));
    all
}

/// The record of a payload is written as it came, by each of the two ways.
fn round_trips<T: Fixed + PartialEq + std::fmt::Debug>(payload: &[u8], row: &[u64]) {
    let record = T::read(payload).unwrap();
    assert_eq!(record.row(), row);
    assert_eq!(T::of_row(row).as_ref(), Ok(&record));
    let (mut out, mut fast, mut numbers) = ([0; 263], [0; 263], [7; 33]);
    let size = payload.len() + 8;
    assert_eq!(record.write(OURS, &mut out), Ok(size));
    assert_eq!(out[6..size - 2], *payload);
    assert_eq!(T::read(&out[6..size - 2]), Ok(record));

    assert_eq!(read_row(T::TYPE, payload, &mut numbers), 0);
    assert_eq!(numbers[..row.len()], *row);
    assert_eq!(
        write_row(crc_table, &mut fast, T::TYPE, OURS, row),
        Ok(size)
    );
    assert_eq!(fast, out);
}

/// 22 for a byte or a number more or less; 32 for a frame's room of one less.
fn one_off<T: Fixed + PartialEq + std::fmt::Debug>(payload: &[u8], row: &[u64]) {
    let longer = [payload, &[0]].concat();
    for wrong in [&payload[1..], &longer, &[]] {
        assert_eq!(T::read(wrong), Err(22));
        assert_eq!(answer(T::TYPE, wrong), 22);
        assert_eq!(twin::fast::answer(T::TYPE, wrong), 22);
    }
    let more = [row, &[0]].concat();
    for wrong in [&row[1..], &more, &[]] {
        assert_eq!(T::of_row(wrong), Err(22));
        assert_eq!(write_row(crc_table, &mut [], T::TYPE, OURS, wrong), Err(22));
    }
    let mut short = vec![0xA7; payload.len() + 7];
    assert_eq!(T::read(payload).unwrap().write(OURS, &mut short), Err(32));
    assert_eq!(
        write_row(crc_table, &mut short, T::TYPE, OURS, row),
        Err(32)
    );
    assert!(short.iter().all(|&b| b == 0xA7));
}

/// A message's fields as 003's table has them: offset, format, name.
macro_rules! table {
    ($test:ident $name:ident $length:literal $($offset:literal $format:ident $($field:ident).+;)*) => {
        #[test]
        fn $test() {
            for payload in payloads($name::TYPE, $length) {
                let record = $name::read(&payload).unwrap();
                $(assert_eq!(
                    record.$($field).+, $format(&payload, $offset).0, stringify!($($field).+)
                );)*
                let row = [$($format(&payload, $offset).1),*];
                round_trips::<$name>(&payload, &row);
                one_off::<$name>(&payload, &row);
            }
        }
    };
}

table! { ephemeris_gps EphemerisGps 185
    0 u16 common.sid.sat;
    2 u8 common.sid.code;
    3 u8 common.sid.reserved;
    4 u32 common.toe.tow;
    8 u16 common.toe.wn;
    10 double common.ura;
    18 u32 common.fit_interval;
    22 u8 common.valid;
    23 u8 common.health;
    24 double tgd;
    32 double c_rs;
    40 double c_rc;
    48 double c_uc;
    56 double c_us;
    64 double c_ic;
    72 double c_is;
    80 double dn;
    88 double m0;
    96 double ecc;
    104 double sqrta;
    112 double omega0;
    120 double omegadot;
    128 double w;
    136 double inc;
    144 double inc_dot;
    152 double af0;
    160 double af1;
    168 double af2;
    176 u32 toc.tow;
    180 u16 toc.wn;
    182 u8 iode;
    183 u16 iodc;
}

table! { ephemeris_sbas EphemerisSbas 112
    0 u16 common.sid.sat;
    2 u8 common.sid.code;
    3 u8 common.sid.reserved;
    4 u32 common.toe.tow;
    8 u16 common.toe.wn;
    10 double common.ura;
    18 u32 common.fit_interval;
    22 u8 common.valid;
    23 u8 common.health;
    24 double motion.pos.x;
    32 double motion.pos.y;
    40 double motion.pos.z;
    48 double motion.vel.x;
    56 double motion.vel.y;
    64 double motion.vel.z;
    72 double motion.acc.x;
    80 double motion.acc.y;
    88 double motion.acc.z;
    96 double a_gf0;
    104 double a_gf1;
}

table! { ephemeris_glo EphemerisGlo 112
    0 u16 common.sid.sat;
    2 u8 common.sid.code;
    3 u8 common.sid.reserved;
    4 u32 common.toe.tow;
    8 u16 common.toe.wn;
    10 double common.ura;
    18 u32 common.fit_interval;
    22 u8 common.valid;
    23 u8 common.health;
    24 double gamma;
    32 double tau;
    40 double motion.pos.x;
    48 double motion.pos.y;
    56 double motion.pos.z;
    64 double motion.vel.x;
    72 double motion.vel.y;
    80 double motion.vel.z;
    88 double motion.acc.x;
    96 double motion.acc.y;
    104 double motion.acc.z;
}

table! { iono Iono 70
    0 u32 t_nmct.tow;
    4 u16 t_nmct.wn;
    6 double a0;
    14 double a1;
    22 double a2;
    30 double a3;
    38 double b0;
    46 double b1;
    54 double b2;
    62 double b3;
}

table! { sv_configuration_gps SvConfigurationGps 10
    0 u32 t_nmct.tow;
    4 u16 t_nmct.wn;
    6 u32 l2c_mask;
}

table! { group_delay GroupDelay 14
    0 u32 t_op.tow;
    4 u16 t_op.wn;
    6 u8 prn;
    7 u8 valid;
    8 s16 tgd;
    10 s16 isc_l1ca;
    12 s16 isc_l2c;
}

/// A delay below zero is sign-extended, and 23 past its ends.
#[test]
fn group_delays_are_signed() {
    let row_of = |tgd: i64| [1, 2, 3, 4, tgd as u64, 0, 0];
    for tgd in [0, 1, -1, 32767, -32768] {
        let delay = GroupDelay::of_row(&row_of(tgd)).unwrap();
        assert_eq!(i64::from(delay.tgd), tgd);
        assert_eq!(delay.row(), row_of(tgd));
    }
    for tgd in [32768, -32769, 65535, 65536, i64::MIN, i64::MAX] {
        assert_eq!(GroupDelay::of_row(&row_of(tgd)), Err(23));
        let written = write_row(crc_table, &mut [0; 22], 0x0092, OURS, &row_of(tgd));
        assert_eq!(written, Err(23));
    }
}

/// A payload of the same length is no reading of a retired type.
#[test]
fn retired_ephemerides_are_21() {
    for msg_type in RETIRED {
        assert_eq!(answer(msg_type, &[1; 185]), 21);
        assert_eq!(twin::fast::answer(msg_type, &[1; 185]), 21);
        assert_eq!(read_row(msg_type, &[1; 185], &mut [0; 32]), 21);
        assert_eq!(Message::of_row(msg_type, &[1; 32]), Err(21));
    }
}

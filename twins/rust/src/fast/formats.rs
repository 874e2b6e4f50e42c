//! Of each message without a tail its fields in order, length and range.

#[derive(Clone, Copy)]
pub(super) enum Field {
    U8,
    U16,
    U32,
    S16,
    S32,
    Double,
}

pub(super) struct Format {
    pub fields: &'static [Field],
    pub length: usize,
    pub range: Range,
}

/// Which field is ranged: GPS_TIME's ns, or flags, the last, by its fix mode.
pub(super) enum Range {
    Any,
    Ns,
    Mode(u8),
}

use Field::{Double, S16, S32, U16, U32, U8};
use Range::{Any, Mode, Ns};

const ECEF: &[Field] = &[U32, S32, S32, S32, U16, U8, U8];
const NED: &[Field] = &[U32, S32, S32, S32, U16, U16, U8, U8];
const TIME: &[Field] = &[U32, U16];
const SATELLITE: &[Field] = &[U16, U8, U8];
const COMMON: &[Field] = &joined::<9>(&[SATELLITE, TIME, &[Double, U32, U8, U8]]);
const GPS: &[Field] = &joined::<32>(&[COMMON, &[Double; 19], TIME, &[U8, U16]]);
const SBAS_GLO: &[Field] = &joined::<20>(&[COMMON, &[Double; 11]]);
const IONO: &[Field] = &joined::<10>(&[TIME, &[Double; 8]]);
const L2C: &[Field] = &joined::<3>(&[TIME, &[U32]]);
const DELAY: &[Field] = &joined::<7>(&[TIME, &[U8, U8, S16, S16, S16]]);

/// Runs of fields, one after the other.
const fn joined<const COUNT: usize>(runs: &[&[Field]]) -> [Field; COUNT] {
    let mut all = [U8; COUNT];
    let (mut run, mut at) = (0, 0);
    while run < runs.len() {
        let mut i = 0;
        while i < runs[run].len() {
            all[at] = runs[run][i];
            i += 1;
            at += 1;
        }
        run += 1;
    }
    assert!(at == COUNT);
    all
}

/// The length, as the documents have it, is held against the fields.
const fn format(fields: &'static [Field], length: usize, range: Range) -> Format {
    let (mut i, mut sum) = (0, 0);
    while i < fields.len() {
        sum += fields[i].width();
        i += 1;
    }
    assert!(sum == length);
    Format {
        fields,
        length,
        range,
    }
}

pub(super) static OBS_HEAD: Format = format(&[U32, U16, U8], 7, Any);

/// None for a type that has a tail, or no reading.
#[inline]
pub(super) fn format_of(msg_type: u16) -> Option<&'static Format> {
    const D: Field = Double;
    Some(match msg_type {
        0x0100 => const { &format(&[U16, U32, S32, U8], 11, Ns) },
        0x0206 => const { &format(&[U32, U16, U16, U16, U16, U16], 14, Any) },
        0x0200 => const { &format(&[U32, D, D, D, U16, U8, U8], 32, Mode(2)) },
        0x0201 => const { &format(&[U32, D, D, D, U16, U16, U8, U8], 34, Mode(2)) },
        0x0202 => const { &format(ECEF, 20, Mode(1)) },
        0x0203 => const { &format(NED, 22, Mode(1)) },
        0x0204 => const { &format(ECEF, 20, Any) },
        0x0205 => const { &format(NED, 22, Any) },
        0x0207 => const { &format(&[U32, U32, U8, U8], 10, Mode(1)) },
        0x0044 | 0x0048 => const { &format(&[D, D, D], 24, Any) },
        0x0081 => const { &format(GPS, 185, Any) },
        0x0082 | 0x0083 => const { &format(SBAS_GLO, 112, Any) },
        0x0090 => const { &format(IONO, 70, Any) },
        0x0091 => const { &format(L2C, 10, Any) },
        0x0092 => const { &format(DELAY, 14, Any) },
        0x00A1 | 0x00A6 => const { &format(&[], 0, Any) },
        0x00A2 => const { &format(&[U16], 2, Any) },
        0xFF00 | 0xFFFF => const { &format(&[U32], 4, Any) },
        _ => return None,
    })
}

impl Format {
    /// 0, or 22, 23.
    #[inline]
    pub fn answer(&self, payload: &[u8]) -> u8 {
        if payload.len() != self.length {
            return 22;
        }
        let in_range = match self.range {
            Any => true,
            Ns => ns_in_range(ns_of(payload)),
            Mode(highest) => payload[self.length - 1] & 7 <= highest,
        };
        if !in_range {
            return 23;
        }
        0
    }

    /// Whether a row's ranged number is inside; each fits its field.
    #[inline]
    pub fn in_range(&self, row: &[u64]) -> bool {
        match self.range {
            Any => true,
            Ns => ns_in_range(row[2] as i64),
            Mode(highest) => row[row.len() - 1] & 7 <= highest.into(),
        }
    }
}

/// GPS_TIME's, of a payload of the right length.
#[inline]
fn ns_of(payload: &[u8]) -> i64 {
    i32::from_le_bytes([payload[6], payload[7], payload[8], payload[9]]).into()
}

#[inline]
fn ns_in_range(ns: i64) -> bool {
    (-500_000..=500_000).contains(&ns)
}

impl Field {
    #[inline]
    pub const fn width(self) -> usize {
        match self {
            U8 => 1,
            U16 | S16 => 2,
            U32 | S32 => 4,
            Double => 8,
        }
    }
}

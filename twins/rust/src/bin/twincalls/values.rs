//! Types, rooms, payloads and numbers to ask with.

use twin::gen::{broken_range, off_length, valid, Rng, TYPES};
use twin::messages::Message;

/// The ends of widths and ranges, and one past them.
const ENDS: [i64; 30] = [
    0,
    1,
    -1,
    127,
    128,
    -128,
    255,
    256,
    32767,
    32768,
    -32768,
    -32769,
    65535,
    65536,
    0x7FFF_FFFF,
    0x8000_0000,
    -0x8000_0000,
    -0x8000_0001,
    0xFFFF_FFFF,
    0x1_0000_0000,
    -0x1_0000_0000,
    499_999,
    500_000,
    500_001,
    -499_999,
    -500_000,
    -500_001,
    i64::MAX,
    i64::MIN,
    i64::MIN + 0x7FFF_FFFF,
];

/// Zeros, infinities, NaN patterns, and the ends of what is normal.
const DOUBLES: [u64; 14] = [
    0,
    0x8000_0000_0000_0000,
    0x7FF0_0000_0000_0000,
    0xFFF0_0000_0000_0000,
    0x7FF0_0000_0000_0001,
    0xFFF0_0000_0000_0001,
    0x7FF8_0000_0000_0000,
    0xFFF8_0000_0000_0000,
    0x7FFF_FFFF_FFFF_FFFF,
    0xFFFF_FFFF_FFFF_FFFF,
    0x0000_0000_0000_0001,
    0x800F_FFFF_FFFF_FFFF,
    0x0010_0000_0000_0000,
    0x7FEF_FFFF_FFFF_FFFF,
];

pub fn number(rng: &mut Rng) -> u64 {
    match rng.below(5) {
        0 | 1 => rng.pick(&ENDS) as u64,
        2 => rng.pick(&DOUBLES),
        // Flags and other small ones.
        3 => rng.below(256) as u64,
        _ => rng.word() >> rng.below(64),
    }
}

/// At times a type beside one of the table, or any.
pub fn kind_near(rng: &mut Rng, kind: u16) -> u16 {
    match rng.below(40) {
        0 => kind.wrapping_add(1),
        1 => kind.wrapping_sub(1),
        2 => kind.swap_bytes(),
        3 => kind ^ 1 << rng.below(16),
        4 => rng.word() as u16,
        5 => rng.pick(&TYPES),
        _ => kind,
    }
}

/// Rooms around the right one.
pub fn room(rng: &mut Rng, right: usize) -> usize {
    match rng.below(8) {
        0 | 1 => right.saturating_sub(1),
        2 => right + 1,
        3 => rng.below(right + 1),
        4 => right + rng.below(300),
        _ => right,
    }
}

/// A payload that fits its type, or does not.
pub fn payload(rng: &mut Rng, kind: u16) -> Vec<u8> {
    match rng.below(12) {
        0 | 1 => off_length(rng, kind),
        2 => any_length(rng),
        3 | 4 => broken_range(rng, kind).unwrap_or_else(|| valid(rng, kind)),
        _ => valid(rng, kind),
    }
}

fn any_length(rng: &mut Rng) -> Vec<u8> {
    let any = rng.below(400);
    let size = rng.pick(&[0, 254, 255, 256, 257, 247, 263, any]);
    rng.bytes(size)
}

/// A row of the type, or for one without a row of anything; some of its
/// numbers are exchanged for others.
pub fn row(rng: &mut Rng, kind: u16) -> Vec<u64> {
    let payload = valid(rng, kind);
    let mut row = Message::read(kind, &payload).map_or(vec![1, 2, 3], |m| m.row());
    exchange(rng, &mut row);
    if rng.chance(1, 8) {
        leave_range(rng, kind, &mut row);
    }
    row
}

/// What its field can hold, and is outside its range.
fn leave_range(rng: &mut Rng, kind: u16, row: &mut [u64]) {
    let far = 500_001 + rng.below(2_000_000_000) as i64;
    match (kind, row) {
        (0x0100, [_, _, ns, _]) => *ns = rng.pick(&[500_001, -500_001, far, -far]) as u64,
        (0x0200 | 0x0201, [.., flags]) => *flags = *flags & 0xF8 | rng.between(3, 7) as u64,
        (0x0202 | 0x0203 | 0x0207, [.., flags]) => {
            *flags = *flags & 0xF8 | rng.between(2, 7) as u64;
        }
        _ => {}
    }
}

pub fn exchange(rng: &mut Rng, row: &mut [u64]) {
    let times = rng.pick(&[0, 0, 1, 1, 1, 2, row.len()]);
    for _ in 0..times.min(row.len()) {
        let at = rng.below(row.len());
        row[at] = number(rng);
    }
}

/// At times one number more or less, none, or twice as many.
pub fn miscount(rng: &mut Rng, row: &mut Vec<u64>) {
    match rng.below(32) {
        0 => row.push(7),
        1 => drop(row.pop()),
        2 => row.clear(),
        3 => row.extend(row.clone()),
        _ => {}
    }
}

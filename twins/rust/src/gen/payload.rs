//! Payloads for each type that has a reading: right, of a wrong length, and
//! with a ranged field out of range or LOG's text going on after a zero. Made
//! from bytes, not from the records of `messages`, so that they can test those.

use super::layouts::{known, Layout, LAYOUTS};
use super::rng::Rng;

/// Some length right for the type.
fn right_length(rng: &mut Rng, layout: &Layout) -> usize {
    match layout.msg_type {
        0x0049 => 16 * few(rng, 15) + 7,
        0x0401 => 1 + few(rng, 254),
        _ => layout.length,
    }
}

/// Often small, at times the most, so that captures stay small.
fn few(rng: &mut Rng, most: usize) -> usize {
    match rng.below(8) {
        0 => most,
        1 => rng.between(0, most),
        _ => rng.between(0, most.min(4)),
    }
}

/// Bytes that are at times all alike or all special.
fn filling(rng: &mut Rng, count: usize) -> Vec<u8> {
    match rng.below(8) {
        0 => vec![rng.pick(&[0x00, 0x55, 0x7F, 0x80, 0xFF]); count],
        1 => (0..count)
            .map(|_| rng.pick(&[0x00, 0x01, 0x55, 0x7F, 0x80, 0xF0, 0xF8, 0xFF]))
            .collect(),
        _ => rng.bytes(count),
    }
}

/// NaN patterns, infinities, minus zero, the smallest, other subnormals, and
/// plain values.
fn special_double(rng: &mut Rng) -> u64 {
    let payload = rng.word() & 0x000F_FFFF_FFFF_FFFF;
    match rng.below(10) {
        0 => 0x8000_0000_0000_0000,
        1 => 0x7FF0_0000_0000_0000,
        2 => 0xFFF0_0000_0000_0000,
        3 => 0x7FF0_0000_0000_0001,
        4 => 0x7FF0_0000_0000_0000 | payload,
        5 => 0xFFF0_0000_0000_0000 | payload,
        6 => 1,
        7 => payload,
        8 => 0x8000_0000_0000_0000 | payload,
        _ => 1234.5f64.to_bits(),
    }
}

fn set_mode(payload: &mut [u8], mode: u8) {
    if let Some(flags) = payload.last_mut() {
        *flags = *flags & 0xF8 | mode;
    }
}

fn set_ns(payload: &mut [u8], ns: i32) {
    payload[6..10].copy_from_slice(&ns.to_le_bytes());
}

/// LOG's last bytes are zeros, and none before them but the level.
fn set_padding(payload: &mut [u8], padding: usize) {
    let end = payload.len() - padding;
    payload[1..end].iter_mut().for_each(|b| *b = (*b).max(1));
    payload[end..].fill(0);
}

/// A zero in LOG, and after it a byte that is none.
fn break_padding(rng: &mut Rng, payload: &mut Vec<u8>) {
    // The level and these two.
    payload.resize(payload.len().max(3), 0);
    let last = payload.len() - 1;
    let zero = rng.between(1, last - 1);
    let any = rng.between(zero + 1, last);
    let letter = rng.pick(&[zero + 1, any, last]);
    payload[zero] = 0;
    payload[letter] |= 1;
}

/// About half of the doubles become special ones.
fn set_doubles(rng: &mut Rng, payload: &mut [u8], layout: &Layout) {
    for &(start, count) in layout.doubles {
        for double in payload[start..].chunks_exact_mut(8).take(count) {
            if rng.chance(1, 2) {
                double.copy_from_slice(&special_double(rng).to_le_bytes());
            }
        }
    }
}

/// A payload that answers 0, if its type has a reading.
pub fn valid(rng: &mut Rng, msg_type: u16) -> Vec<u8> {
    // A type without a reading looks like some other.
    let layout = known(msg_type).unwrap_or_else(|| rng.pick(&LAYOUTS));
    let count = right_length(rng, &layout);
    let mut payload = filling(rng, count);
    set_doubles(rng, &mut payload, &layout);
    if let Some(highest) = layout.highest_mode {
        let mode = rng.below(usize::from(highest) + 1) as u8;
        set_mode(&mut payload, mode);
    }
    if msg_type == 0x0100 {
        let inside = rng.below(1_000_001) as i32 - 500_000;
        let ns = rng.pick(&[-500_000, 500_000, -499_999, 499_999, 0, -1, inside]);
        set_ns(&mut payload, ns);
    }
    if msg_type == 0x0401 {
        let room = payload.len() - 1;
        let some = rng.between(0, room);
        let padding = rng.pick(&[0, 0, room.min(1), some, some, room]);
        set_padding(&mut payload, padding);
        // A level of 0 ends nothing.
        if rng.chance(1, 8) {
            payload[0] = 0;
        }
    }
    payload
}

/// A payload that answers 23, if one of its type can.
pub fn broken_range(rng: &mut Rng, msg_type: u16) -> Option<Vec<u8>> {
    let mut payload = valid(rng, msg_type);
    if let Some(highest) = known(msg_type).and_then(|l| l.highest_mode) {
        let mode = rng.between(usize::from(highest) + 1, 7) as u8;
        set_mode(&mut payload, mode);
        return Some(payload);
    }
    if msg_type == 0x0100 {
        let far = 500_001 + rng.below(2_000_000_000) as i32;
        let ns = rng.pick(&[500_001, -500_001, i32::MAX, i32::MIN, far, -far]);
        set_ns(&mut payload, ns);
        return Some(payload);
    }
    if msg_type == 0x0401 {
        break_padding(rng, &mut payload);
        return Some(payload);
    }
    None
}

/// A payload whose length is mostly one off, at times far off. (For LOG only
/// length 0 is wrong: others answer 0, or 23 for a byte after a zero.)
pub fn off_length(rng: &mut Rng, msg_type: u16) -> Vec<u8> {
    let mut payload = match broken_range(rng, msg_type) {
        // 22 must come before 23.
        Some(broken) if rng.chance(1, 4) => broken,
        _ => valid(rng, msg_type),
    };
    match rng.below(8) {
        0 => payload.clear(),
        1 => {
            let count = rng.below(256);
            payload = filling(rng, count);
        }
        2..=4 if !payload.is_empty() => {
            payload.pop();
        }
        _ if payload.len() < 255 => payload.push(rng.byte()),
        _ => {
            payload.pop();
        }
    }
    payload
}

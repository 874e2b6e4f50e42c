//! Putting frames together. The CRC is `fast`'s, which the tests compare
//! with the plain one.

use super::layouts::{RETIRED, TYPES};
use super::payload::{broken_range, off_length, valid};
use super::rng::Rng;
use crate::fast::crc_sliced;

/// The frame of a payload of at most 255 bytes.
pub fn frame(msg_type: u16, sender: u16, payload: &[u8]) -> Vec<u8> {
    let mut bytes = vec![0x55];
    bytes.extend_from_slice(&msg_type.to_le_bytes());
    bytes.extend_from_slice(&sender.to_le_bytes());
    bytes.push(payload.len() as u8);
    bytes.extend_from_slice(payload);
    let sum = crc_sliced(0, &bytes[1..]);
    bytes.extend_from_slice(&sum.to_le_bytes());
    bytes
}

/// A type: of the table, next to one of the table, out of use, or any.
pub fn any_type(rng: &mut Rng) -> u16 {
    let listed = rng.pick(&TYPES);
    match rng.below(8) {
        0 => rng.word() as u16,
        1 => listed.wrapping_add(1),
        2 => rng.pick(&[listed.swap_bytes(), RETIRED[0], RETIRED[1]]),
        _ => listed,
    }
}

/// A sender, with the ones that might be taken for special among them.
pub fn any_sender(rng: &mut Rng) -> u16 {
    match rng.below(6) {
        0 => 0,
        1 => 65535,
        2 => 0x42,
        3 => 1228,
        4 => rng.below(4) as u16,
        _ => rng.word() as u16,
    }
}

/// A frame whose payload may answer anything.
pub fn any_frame(rng: &mut Rng) -> Vec<u8> {
    let msg_type = any_type(rng);
    let payload = match rng.below(6) {
        0 => off_length(rng, msg_type),
        1 => match broken_range(rng, msg_type) {
            Some(payload) => payload,
            None => valid(rng, msg_type),
        },
        _ => valid(rng, msg_type),
    };
    frame(msg_type, any_sender(rng), &payload)
}

/// A frame whose payload answers 0.
pub fn good_frame(rng: &mut Rng) -> Vec<u8> {
    let msg_type = rng.pick(&TYPES);
    let payload = valid(rng, msg_type);
    frame(msg_type, any_sender(rng), &payload)
}

/// The same frame with its CRC made wrong: in the CRC itself or by one bit
/// of what it covers, length excepted.
pub fn damaged(rng: &mut Rng, mut bytes: Vec<u8>) -> Vec<u8> {
    let last = bytes.len() - 1;
    let at = match rng.below(4) {
        0 => last,
        1 => last - 1,
        2 => rng.between(1, 4),
        _ => rng.between(6, last),
    };
    bytes[at] ^= 1 << rng.below(8);
    bytes
}

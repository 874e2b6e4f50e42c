//! Observation packets of several senders, in any order, with and without
//! faults.

use super::frame::{any_type, damaged, frame};
use super::payload::{off_length, valid};
use super::rng::Rng;
use std::collections::VecDeque;

const OBS: u16 = 0x0049;

/// tow, wn, n: what the packets of an epoch share.
#[derive(Clone, Copy)]
struct Key {
    tow: u32,
    wn: u16,
    n: u8,
}

/// How much goes wrong in a sender's packets.
#[derive(Clone, Copy, PartialEq, Eq)]
pub enum Faults {
    None,
    Some,
    Many,
}

/// `count` different senders, 0 among them more often than not.
pub fn senders(rng: &mut Rng, count: usize) -> Vec<u16> {
    let mut found: Vec<u16> = Vec::new();
    if rng.chance(3, 4) {
        found.push(0);
    }
    if rng.chance(1, 3) {
        found.push(65535);
    }
    found.truncate(count);
    while found.len() < count {
        let next = match rng.below(3) {
            0 => rng.below(20) as u16,
            1 => rng.pick(&[0x42, 1228, 256, 0x5555, 65534]),
            _ => rng.word() as u16,
        };
        if !found.contains(&next) {
            found.push(next);
        }
    }
    // The first sender in the capture should not always be 0.
    let turn = rng.below(count);
    found.rotate_left(turn);
    found
}

/// A packet of any k, mostly small.
fn packet(rng: &mut Rng, key: Key, counter: u8) -> Vec<u8> {
    let k = match rng.below(24) {
        0 => 15,
        1 => rng.between(0, 15),
        _ => rng.below(4),
    };
    packet_of(rng, key, counter, k)
}

fn packet_of(rng: &mut Rng, key: Key, counter: u8, k: usize) -> Vec<u8> {
    let mut payload = Vec::with_capacity(16 * k + 7);
    payload.extend_from_slice(&key.tow.to_le_bytes());
    payload.extend_from_slice(&key.wn.to_le_bytes());
    payload.push(key.n << 4 | counter);
    payload.extend_from_slice(&rng.bytes(16 * k));
    payload
}

/// One field of the key changed, so that a packet no longer belongs.
fn other_key(rng: &mut Rng, key: Key) -> Key {
    let mut other = key;
    match rng.below(5) {
        0 => other.tow ^= 1 << rng.below(32),
        1 => other.wn ^= 1 << rng.below(16),
        2 if other.n < 15 => other.n += 1,
        3 if other.n > 1 => other.n -= 1,
        _ => other.tow = other.tow.wrapping_add(200),
    }
    other
}

/// A packet the collator refuses: 22, 44 or 45, with this key otherwise.
fn refused(rng: &mut Rng, key: Key, counter: u8) -> Vec<u8> {
    let mut payload = packet(rng, key, counter);
    match rng.below(4) {
        0 => payload[6] &= 0x0F,
        1 => payload[6] = key.n << 4 | rng.between(key.n.into(), 15) as u8,
        2 => {
            payload.pop();
        }
        _ => payload.push(rng.byte()),
    }
    payload
}

/// The counters of an epoch as they come: packets overtake each other.
fn order(rng: &mut Rng, n: u8) -> Vec<u8> {
    let mut counters: Vec<u8> = (0..n).collect();
    let at = rng.below(counters.len());
    match rng.below(6) {
        0 => counters.reverse(),
        1 => counters.rotate_left(at),
        2 => counters.swap(at, at.max(1) - 1),
        3 => rng.shuffle(&mut counters),
        _ => {}
    }
    counters
}

/// The packets of one epoch as payloads, perhaps with faults.
fn epoch(rng: &mut Rng, key: Key, faults: Faults) -> Vec<Vec<u8>> {
    // Now and then full packets, for the largest sums.
    let full = rng.chance(1, 40);
    let mut packets: Vec<Vec<u8>> = order(rng, key.n)
        .into_iter()
        .map(|i| {
            if full {
                packet_of(rng, key, i, 15)
            } else {
                packet(rng, key, i)
            }
        })
        .collect();
    let count = match faults {
        Faults::None => 0,
        Faults::Some => rng.below(2),
        Faults::Many => rng.between(1, 3),
    };
    for _ in 0..count {
        if packets.is_empty() {
            break;
        }
        let at = rng.below(packets.len());
        let counter = rng.below(key.n.into()) as u8;
        match rng.below(16) {
            // A copy: at once or later, or after all others.
            0 | 1 => {
                let to = rng.between(at, packets.len());
                packets.insert(to, packets[at].clone());
            }
            2 => packets.push(packets[at].clone()),
            // A counter twice, with other observations: between, or in place.
            3 => packets.insert(at, packet(rng, key, counter)),
            4 => packets[at] = packet(rng, key, counter),
            // Lost.
            5 | 6 => {
                packets.remove(at);
            }
            // A packet of another epoch in its place, or between.
            7 => {
                let other = other_key(rng, key);
                packets[at] = packet(rng, other, counter);
            }
            8 => {
                let other = other_key(rng, key);
                packets.insert(at, packet(rng, other, counter));
            }
            // The right counter with another key: one packet, or all the rest.
            9 | 10 => {
                let other = other_key(rng, key);
                let until = rng.pick(&[at + 1, packets.len()]);
                for later in &mut packets[at..until] {
                    // A refused packet may be too short to have a counter.
                    if let Some(n_obs) = later.get(6) {
                        *later = packet(rng, other, n_obs & 15);
                    }
                }
            }
            // All of them again: instead of the rest, or after it.
            11 | 12 => {
                let keep = rng.pick(&[at, packets.len()]);
                packets.truncate(keep);
                for i in order(rng, key.n) {
                    packets.push(packet(rng, key, i));
                }
            }
            // Refused packets between: these must not drop what is open.
            _ => packets.insert(at, refused(rng, key, counter)),
        }
    }
    packets
}

/// One sender's frames in their order: epochs, with others between.
fn queue(
    rng: &mut Rng,
    sender: u16,
    start: Key,
    faults: Faults,
    epochs: usize,
) -> VecDeque<Vec<u8>> {
    let mut frames = VecDeque::new();
    let mut key = start;
    let mut late = None;
    for _ in 0..epochs {
        key.n = match rng.below(6) {
            0 => 15,
            1 => rng.between(1, 15) as u8,
            2 => 1,
            _ => rng.between(2, 5) as u8,
        };
        let mut packets = epoch(rng, key, faults);
        let at = rng.below(packets.len() + 1);
        if let Some(overtaken) = late.take() {
            packets.insert(at, overtaken);
        } else if faults != Faults::None && rng.chance(1, 8) {
            // The next epoch overtakes its last packet.
            late = packets.pop();
        }
        for payload in packets {
            let whole = frame(OBS, sender, &payload);
            if faults == Faults::Many && rng.chance(1, 30) {
                // Damaged on the way, and perhaps sent again.
                frames.push_back(damaged(rng, whole.clone()));
                if rng.chance(1, 2) {
                    frames.push_back(whole);
                }
                continue;
            }
            frames.push_back(whole);
            if rng.chance(1, 12) {
                frames.push_back(between(rng, sender));
            }
        }
        // At times the next epoch has the same time.
        if rng.chance(4, 5) {
            key.tow = key.tow.wrapping_add(200);
        }
    }
    frames
}

/// A frame of the same sender that has no part in its epochs.
fn between(rng: &mut Rng, sender: u16) -> Vec<u8> {
    let msg_type = any_type(rng);
    let payload = if msg_type == OBS {
        off_length(rng, msg_type)
    } else {
        valid(rng, msg_type)
    };
    frame(msg_type, sender, &payload)
}

/// The senders' frames dealt into one stream, each sender's in its order.
pub fn stream(rng: &mut Rng, count: usize, faults: Faults, budget: usize) -> Vec<u8> {
    // Epochs keyed by time alone would mix senders of one time.
    let shared = rng.chance(2, 3);
    let common = Key {
        tow: rng.word() as u32,
        wn: rng.word() as u16,
        n: 1,
    };
    // About 50 bytes a packet and 5 packets an epoch.
    let epochs = 1 + budget / (250 * count);
    let mut queues: Vec<VecDeque<Vec<u8>>> = Vec::new();
    for sender in senders(rng, count) {
        let start = Key {
            tow: if shared {
                common.tow
            } else {
                rng.word() as u32
            },
            ..common
        };
        queues.push(queue(rng, sender, start, faults, epochs));
    }
    let mut bytes = Vec::new();
    while bytes.len() < budget && !queues.is_empty() {
        let at = rng.below(queues.len());
        // Now and then a sender sends several in a row.
        for _ in 0..rng.pick(&[1, 1, 1, 2, 6]) {
            match queues[at].pop_front() {
                Some(next) => bytes.extend_from_slice(&next),
                None => break,
            }
        }
        if queues[at].is_empty() {
            queues.remove(at);
        }
    }
    bytes
}

//! The kinds of capture. Each gives about `budget` bytes, at most 300 more.

use super::frame::{any_frame, any_sender, damaged, frame, good_frame};
use super::layouts::TYPES;
use super::obs::{senders, stream, Faults};
use super::payload::{broken_range, off_length, valid};
use super::rng::Rng;

pub type Shape = fn(&mut Rng, usize) -> Vec<u8>;

pub const SHAPES: [Shape; 15] = [
    clean,
    few_senders,
    many_senders,
    faulty_epochs,
    faulty_many,
    frames_in_bad,
    frames_in_good,
    dense,
    sweep,
    random,
    noisy,
    tiny,
    cut,
    mutated,
    crowded_roster,
];

fn fill(budget: usize, mut next: impl FnMut() -> Vec<u8>) -> Vec<u8> {
    let mut bytes = Vec::new();
    while bytes.len() < budget {
        bytes.extend_from_slice(&next());
    }
    bytes
}

/// Right messages back to back.
fn clean(rng: &mut Rng, budget: usize) -> Vec<u8> {
    fill(budget, || good_frame(rng))
}

fn few_senders(rng: &mut Rng, budget: usize) -> Vec<u8> {
    let count = rng.between(1, 3);
    stream(rng, count, Faults::None, budget)
}

fn many_senders(rng: &mut Rng, budget: usize) -> Vec<u8> {
    let count = rng.between(4, 12);
    stream(rng, count, Faults::None, budget)
}

fn faulty_epochs(rng: &mut Rng, budget: usize) -> Vec<u8> {
    let count = rng.between(1, 4);
    stream(rng, count, Faults::Many, budget)
}

fn faulty_many(rng: &mut Rng, budget: usize) -> Vec<u8> {
    let count = rng.between(5, 12);
    stream(rng, count, Faults::Some, budget)
}

/// Bytes of at most `room` with true frames among them, nested at times.
fn carrying(rng: &mut Rng, room: usize, depth: usize) -> Vec<u8> {
    let mut bytes = Vec::new();
    for _ in 0..rng.between(1, 5) {
        let junk = rng.below(6);
        bytes.extend_from_slice(&rng.bytes(junk));
        let inner = if depth > 0 && rng.chance(1, 3) {
            let inside = carrying(rng, room.saturating_sub(8), depth - 1);
            let whole = frame(0x0800, any_sender(rng), &inside);
            if rng.chance(1, 2) {
                damaged(rng, whole)
            } else {
                whole
            }
        } else {
            any_frame(rng)
        };
        bytes.extend_from_slice(&inner);
    }
    // A cut here leaves a frame that runs on past its carrier's payload.
    bytes.truncate(room);
    bytes
}

/// Damaged frames with true frames in their payload: not to be skipped.
fn frames_in_bad(rng: &mut Rng, budget: usize) -> Vec<u8> {
    fill(budget, || {
        let inside = carrying(rng, 255, 2);
        let whole = frame(0x0800, any_sender(rng), &inside);
        if rng.chance(1, 4) {
            return any_frame(rng);
        }
        damaged(rng, whole)
    })
}

/// True frames with frames in their payload: those are not to be found.
fn frames_in_good(rng: &mut Rng, budget: usize) -> Vec<u8> {
    fill(budget, || {
        let inside = if rng.chance(1, 4) {
            vec![0x55; rng.below(256)]
        } else {
            carrying(rng, 255, 2)
        };
        let msg_type = rng.pick(&[0x0800, 0x0401, 0x0049]);
        frame(msg_type, any_sender(rng), &inside)
    })
}

/// Little but 0x55: every place is a possible start.
fn dense(rng: &mut Rng, budget: usize) -> Vec<u8> {
    let others = rng.pick(&[0, 1, 4, 12]);
    let with_frames = rng.chance(2, 3);
    fill(budget, || {
        if with_frames && rng.chance(1, 40) {
            return any_frame(rng);
        }
        if rng.chance(others, 16) {
            vec![rng.pick(&[0x00, 0x01, 0x54, 0x56, 0xD5, 0xFF])]
        } else {
            vec![0x55]
        }
    })
}

/// Every type of the table: right, off in length, out of range.
fn sweep(rng: &mut Rng, budget: usize) -> Vec<u8> {
    let mut turn = rng.below(TYPES.len());
    fill(budget, || {
        let msg_type = TYPES[turn % TYPES.len()];
        turn += 1;
        let mut payloads = vec![valid(rng, msg_type), off_length(rng, msg_type)];
        payloads.extend(broken_range(rng, msg_type));
        let payload = &payloads[rng.below(payloads.len())];
        frame(msg_type, any_sender(rng), payload)
    })
}

/// Any bytes, at times with many preambles or few different values.
fn random(rng: &mut Rng, budget: usize) -> Vec<u8> {
    let preambles = rng.pick(&[0, 1, 8]);
    let few_values = rng.chance(1, 3);
    fill(budget, || {
        if rng.chance(preambles, 16) {
            vec![0x55]
        } else if few_values {
            vec![rng.pick(&[0x00, 0x00, 0x55, 0x49, 0x01, 0x02, 0x07])]
        } else {
            vec![rng.byte()]
        }
    })
}

/// Frames with noise, damaged frames and broken-off frames between them.
fn noisy(rng: &mut Rng, budget: usize) -> Vec<u8> {
    fill(budget, || {
        let whole = any_frame(rng);
        match rng.below(8) {
            0 => {
                let count = rng.between(1, 30);
                rng.bytes(count)
            }
            1 => damaged(rng, whole),
            2 => {
                let keep = rng.below(whole.len());
                whole[..keep].to_vec()
            }
            3 => vec![0x55; rng.between(1, 4)],
            _ => whole,
        }
    })
}

/// Many short frames: the longest listings come from these.
fn tiny(rng: &mut Rng, budget: usize) -> Vec<u8> {
    let known = senders(rng, 6);
    let epochs_only = rng.chance(1, 3);
    fill(budget, || {
        let sender = rng.pick(&known);
        if epochs_only {
            // Epochs of one packet, and halves of epochs of two.
            let mut payload = rng.bytes(7);
            payload[6] = rng.pick(&[0x10, 0x10, 0x20, 0x21, 0x11]);
            return frame(0x0049, sender, &payload);
        }
        match rng.below(5) {
            0 => frame(0x0000, sender, &[]),
            1 => frame(0x00A1, sender, &[]),
            2 => frame(0x00A6, sender, &[]),
            3 => {
                // Two packets of one time follow each other often enough.
                let n_obs = rng.pick(&[0x10, 0x20, 0x21, 0x20, 0x21, 0x00, 0x11, 0x01]);
                frame(0x0049, sender, &[1, 0, 0, 0, 2, 0, n_obs])
            }
            _ => {
                let count = rng.below(4);
                let payload = rng.bytes(count);
                frame(0xFFFF, sender, &payload)
            }
        }
    })
}

/// Another shape, broken off somewhere; at times in the middle of a long
/// frame whose bytes hold more preambles.
fn cut(rng: &mut Rng, budget: usize) -> Vec<u8> {
    let mut bytes = match rng.below(4) {
        0 => clean(rng, budget),
        1 => faulty_epochs(rng, budget),
        2 => noisy(rng, budget),
        _ => many_senders(rng, budget),
    };
    if rng.chance(1, 2) {
        let inside = carrying(rng, 255, 1);
        let last = frame(0x0800, any_sender(rng), &inside);
        let keep = rng.below(last.len());
        bytes.extend_from_slice(&last[..keep]);
    } else {
        // Near the end, so that the last frame loses a few bytes.
        let lost = rng.below(12).min(bytes.len());
        bytes.truncate(bytes.len() - lost);
    }
    bytes
}

/// Another shape with bytes changed, put in and taken out.
fn mutated(rng: &mut Rng, budget: usize) -> Vec<u8> {
    let mut bytes = match rng.below(5) {
        0 => clean(rng, budget),
        1 => few_senders(rng, budget),
        2 => faulty_many(rng, budget),
        3 => frames_in_bad(rng, budget),
        _ => sweep(rng, budget),
    };
    for _ in 0..rng.between(1, 12) {
        if bytes.is_empty() {
            break;
        }
        let at = rng.below(bytes.len());
        match rng.below(5) {
            0 => {
                bytes.remove(at);
            }
            1 => bytes.insert(at, rng.byte()),
            2 => bytes.insert(at, 0x55),
            3 => bytes[at] = 0x55,
            _ => bytes[at] ^= 1 << rng.below(8),
        }
    }
    bytes
}

/// More senders than the roster holds, some of whom first appear with an OBS
/// frame that is malformed, or only with other types.
fn crowded_roster(rng: &mut Rng, budget: usize) -> Vec<u8> {
    let mut bytes = Vec::new();
    for sender in senders(rng, 10) {
        let lone = match rng.below(5) {
            0 => frame(0x0049, sender, &[]),
            1 => frame(0x0049, sender, &[0; 6]),
            2 => frame(0x0049, sender, &[1, 0, 0, 0, 2, 0, rng.byte()]),
            3 => frame(0x00A1, sender, &[]),
            _ => continue,
        };
        bytes.extend_from_slice(&lone);
        if bytes.len() >= budget {
            return bytes;
        }
    }
    let count = rng.between(8, 12);
    let left = budget - bytes.len();
    bytes.extend_from_slice(&stream(rng, count, Faults::Some, left));
    bytes
}

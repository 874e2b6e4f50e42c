//! Seeded captures for comparing implementations. The same seed always gives
//! the same bytes; consecutive seeds take the shapes by turns.

mod frame;
mod layouts;
mod obs;
mod payload;
mod rng;
mod shapes;
pub mod stats;

pub use layouts::{RETIRED, TYPES};
pub use payload::{broken_range, off_length, valid};
pub use rng::Rng;

use shapes::SHAPES;

/// Sizes around the limit of `sbplist`, and the smallest.
const EXACT: [usize; 5] = [0, 1, 65535, 65536, 65537];

/// Out of this many seeds in a row, one has each exact size.
const EXACT_EVERY: u64 = 199;

pub fn capture(seed: u64) -> Vec<u8> {
    let mut rng = Rng::new(seed);
    let turn = (seed % EXACT_EVERY) as usize;
    match EXACT.get(turn) {
        Some(&size) => exact(&mut rng, size),
        None => {
            let budget = budget(&mut rng);
            let shape = SHAPES[(seed % SHAPES.len() as u64) as usize];
            shape(&mut rng, budget)
        }
    }
}

/// Mostly under 4 KB, some larger.
fn budget(rng: &mut Rng) -> usize {
    match rng.below(40) {
        0 => rng.between(10_000, 40_000),
        1..=3 => rng.between(4_000, 9_000),
        4..=8 => rng.between(1, 60),
        _ => rng.between(60, 3_500),
    }
}

/// A capture of just this size, of one shape or of several in a row; cut at
/// the end, or at the front so that the last frame ends with the capture.
fn exact(rng: &mut Rng, size: usize) -> Vec<u8> {
    let mut bytes = Vec::new();
    let one_shape = rng.chance(1, 2);
    let first = rng.pick(&SHAPES);
    while bytes.len() < size {
        let shape = if one_shape { first } else { rng.pick(&SHAPES) };
        let left = size - bytes.len();
        let more = shape(rng, left.min(8_000));
        bytes.extend_from_slice(&more);
        // A shape may give nothing; junk keeps this going.
        bytes.push(rng.byte());
    }
    if rng.chance(1, 2) {
        bytes.truncate(size);
        bytes
    } else {
        bytes.split_off(bytes.len() - size)
    }
}

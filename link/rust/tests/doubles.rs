//! Doubles to the bit: NaN patterns, infinities, minus zero, subnormals.

#[macro_use]
mod common;

use common::{Noise, PATTERNS, WRITER, frame};
use yaqtumeer::*;

/// Three doubles at an offset of a payload, in every message that has three.
fn three(bits: [u64; 3]) {
    let doubles = bits.map(u64::to_le_bytes).concat();
    let around =
        |before: usize, after: usize| [vec![0; before], doubles.clone(), vec![0; after]].concat();
    let [first, second, third] = bits.map(f64::from_bits);
    let case = |name: &str| format!("{name} {bits:x?}");

    let payload = around(4, 4);
    let read = PosEcef::read(&payload).unwrap();
    same!(
        case("PosEcef"),
        [read.x, read.y, read.z].map(f64::to_bits),
        bits
    );
    same!(
        case("PosEcef"),
        read.row(),
        [0, bits[0], bits[1], bits[2], 0, 0, 0]
    );
    same!(
        case("PosEcef"),
        read.frame(WRITER.named(1)),
        Ok(frame(0x0200, 1, &payload))
    );

    let payload = around(4, 6);
    let read = PosLlh::read(&payload).unwrap();
    same!(
        case("PosLlh"),
        [read.lat, read.lon, read.height].map(f64::to_bits),
        bits
    );
    same!(
        case("PosLlh"),
        read.frame(WRITER.named(1)),
        Ok(frame(0x0201, 1, &payload))
    );

    let payload = around(0, 0);
    let read = BasePosLlh::read(&payload).unwrap();
    same!(
        case("BasePosLlh"),
        [read.lat, read.lon, read.height].map(f64::to_bits),
        bits
    );
    let written = BasePosLlh {
        lat: first,
        lon: second,
        height: third,
    };
    same!(
        case("BasePosLlh"),
        written.frame(WRITER.named(1)),
        Ok(frame(0x0044, 1, &payload))
    );

    let read = BasePosEcef::read(&payload).unwrap();
    same!(
        case("BasePosEcef"),
        [read.x, read.y, read.z].map(f64::to_bits),
        bits
    );
    let written = Message::from(BasePosEcef {
        x: first,
        y: second,
        z: third,
    });
    same!(case("BasePosEcef"), written.row(), bits);
    same!(
        case("BasePosEcef"),
        written.frame(WRITER.named(1)),
        Ok(frame(0x0048, 1, &payload))
    );
}

#[test]
fn every_pattern_in_every_place() {
    for bits in PATTERNS {
        three([bits, 0x4042_e333_3333_3333, 0]);
        three([0x3ff0_0000_0000_0000, bits, 0x8000_0000_0000_0000]);
        three([0, 0xc05e_9ad7_7318_fc50, bits]);
    }
}

#[test]
fn patterns_by_chance() {
    let mut noise = Noise(0x5eed_0001);
    for _ in 0..2000 {
        three([noise.number(), noise.number(), noise.number()]);
    }
}

#[test]
fn a_nan_equals_nothing_but_its_row_does() {
    let nowhere = PosLlh {
        lat: f64::NAN,
        ..PosLlh::default()
    };
    same!("a NaN", nowhere == nowhere, false);
    same!("its row", nowhere.row(), nowhere.row());
    let (zero, minus) = (
        PosLlh::default(),
        PosLlh {
            lat: -0.0,
            ..PosLlh::default()
        },
    );
    same!("minus zero", zero == minus, true);
    same!("its row", zero.row() == minus.row(), false);
}

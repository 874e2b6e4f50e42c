//! The carrier phase both ways.

#[macro_use]
mod common;

use common::Noise;
use yaqtumeer::*;

const LEAST: i64 = -549755813888;
const GREATEST: i64 = 549755813887;

fn both_ways(phase: i64) {
    let parts = PhaseParts::of(phase).unwrap();
    same!(
        format!("{phase}: l_i"),
        i64::from(parts.l_i),
        phase.div_euclid(256)
    );
    same!(
        format!("{phase}: l_f"),
        i64::from(parts.l_f),
        phase.rem_euclid(256)
    );
    same!("phase", parts.phase(), phase);
    let seen = Observation {
        l_i: parts.l_i,
        l_f: parts.l_f,
        ..Observation::default()
    };
    same!("carrier_phase", seen.carrier_phase(), phase);
}

#[test]
fn known_pairs() {
    for (l_i, l_f, phase) in [
        (-3, 128, -640),
        (-1, 255, -1),
        (0, 0, 0),
        (0x12345678, 0x9a, 0x12345678 * 256 + 0x9a),
        (i32::MIN, 0, LEAST),
        (i32::MAX, 255, GREATEST),
    ] {
        same!("phase", PhaseParts { l_i, l_f }.phase(), phase);
        same!("parts", PhaseParts::of(phase), Ok(PhaseParts { l_i, l_f }));
    }
}

#[test]
fn every_phase_near_an_edge_and_many_others() {
    for phase in (-600..600)
        .chain(LEAST..LEAST + 600)
        .chain(GREATEST - 600..=GREATEST)
    {
        both_ways(phase);
    }
    let mut noise = Noise(0x5eed_0003);
    for _ in 0..10000 {
        both_ways((noise.number() as i64) >> 24);
    }
}

#[test]
fn outside_its_range() {
    for phase in [LEAST - 1, GREATEST + 1, i64::MIN, i64::MAX] {
        same!(
            format!("{phase}"),
            PhaseParts::of(phase),
            Err(Refusal::PhaseOutOfRange)
        );
    }
}

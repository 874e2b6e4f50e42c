//! What flags say, carrier phase, and the version.

use twin::gen::{Rng, TYPES};
use twin::messages::flags::{
    fix_mode, heartbeat_antenna_present, heartbeat_io_error, heartbeat_nap_error,
    heartbeat_system_error, height_mode, raim_available, raim_repair, FixMode, HeightMode,
};
use twin::messages::{phase_from_parts, phase_to_parts, PHASE_MAX, PHASE_MIN};
use twin::numbers::No;

use crate::asked::{told, Asked, Question, Side, FILL};

/// The types that have a fix mode.
const FIXED: [u16; 5] = [0x0200, 0x0201, 0x0202, 0x0203, 0x0207];

/// What is asked once: all flags of each type, of its neighbours and of some
/// that are unknown; each bit of HEARTBEAT's flags; the ends of the phase.
pub fn ask_once(asked: &mut Asked, rng: &mut Rng) {
    if asked.side == Side::Rust {
        FIXED.iter().for_each(|&kind| ask_flags(asked, kind));
    } else {
        for kind in TYPES {
            for near in [kind, kind.wrapping_add(1), kind.wrapping_sub(1), !kind] {
                ask_flags(asked, near);
            }
            ask_flags(asked, rng.word() as u16);
        }
    }
    for bit in 0..32 {
        ask_heartbeat(asked, 1 << bit);
        ask_heartbeat(asked, !(1 << bit));
    }
    for near in -258..=258 {
        for end in [0, PHASE_MIN, PHASE_MAX, 640, 1 << 31, -1 << 31] {
            ask_parts(asked, end + near);
        }
    }
    [i64::MIN, i64::MAX]
        .iter()
        .for_each(|&p| ask_parts(asked, p));
    for l_i in [0, 1, -1, -3, i32::MAX, i32::MIN, i32::MIN + 1] {
        (0..=255).for_each(|l_f| ask_phase(asked, l_i, l_f));
    }
    if asked.side == Side::C {
        ask_version(asked);
    }
}

/// The library's is the header's.
fn ask_version(asked: &mut Asked) {
    let question = Question::new("version", b'v');
    let reply = asked.reply(&question, 0, 8);
    asked.judge(
        &question,
        reply[..4] == reply[4..],
        &reply[..4],
        &reply[4..],
    );
}

pub fn ask(asked: &mut Asked, rng: &mut Rng) {
    ask_heartbeat(asked, rng.word() as u32);
    ask_phase(asked, rng.word() as i32, rng.byte());
    ask_parts(asked, (rng.word() >> rng.below(64)) as i64);
    ask_parts(asked, rng.word() as i64 >> rng.below(64));
}

fn ask_flags(asked: &mut Asked, kind: u16) {
    let mut expected = Vec::new();
    for flags in 0..=255 {
        let fix = fix_mode(kind, flags).map(|mode| match mode {
            Some(FixMode::SinglePoint) => 0,
            Some(FixMode::Float) => 1,
            Some(FixMode::Fixed) => 2,
            None => 3,
        });
        let sea = height_mode(kind, flags).map(|mode| u8::from(mode == HeightMode::AboveSeaLevel));
        expected.push(told_by(fix));
        expected.push(told_by(raim_available(kind, flags).map(u8::from)));
        expected.push(told_by(raim_repair(kind, flags).map(u8::from)));
        expected.push(told_by(sea));
    }
    let number = if expected[0] == 21 { 21 } else { 0 };
    asked.call(Question::new("flags", b'x').of(kind), number, &expected);
}

fn told_by(read: Result<u8, No>) -> u8 {
    read.unwrap_or_else(|no| no)
}

fn ask_heartbeat(asked: &mut Asked, flags: u32) {
    let expected = [
        heartbeat_system_error(flags),
        heartbeat_io_error(flags),
        heartbeat_nap_error(flags),
        heartbeat_antenna_present(flags),
    ];
    let question = Question::new("heartbeat", b'h').put(&flags.to_le_bytes());
    asked.call(question, 0, &expected.map(u8::from));
}

fn ask_phase(asked: &mut Asked, l_i: i32, l_f: u8) {
    let question = Question::new("carrier_phase", b'p');
    let question = question.put(&l_i.to_le_bytes()).put(&[l_f]);
    let phase = phase_from_parts(l_i, l_f);
    asked.call(question, 0, &phase.to_le_bytes());
}

fn ask_parts(asked: &mut Asked, phase: i64) {
    let question = Question::new("phase_parts", b'P').put(&phase.to_le_bytes());
    let (number, l_i, l_f) = match phase_to_parts(phase) {
        Ok((l_i, l_f)) => (0, l_i.to_le_bytes(), l_f),
        Err(no) => (no, [FILL; 4], FILL),
    };
    asked.call(question, number, &told(&[number], &[&l_i, &[l_f]]));
}

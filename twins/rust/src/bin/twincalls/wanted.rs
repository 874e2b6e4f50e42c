//! How often each answer came, from each function and for each message, and
//! which of those that are to come did not.

use std::collections::BTreeMap;

use twin::gen::TYPES;
use twin::messages::{Log, OBS_TYPE};

use crate::asked::{Asked, Side};
use crate::senders::Source::{self, Client, Given, Own};

type Wanted = (&'static str, &'static [u8]);

const OF_BOTH: [Wanted; 10] = [
    ("crc", &[0]),
    ("frame_crc", &[0]),
    ("answer", &[0, 21, 22, 23]),
    ("write_log", &[0, 23, 31, 32]),
    ("write_frame", &[0, 31, 32]),
    ("read back", &[0]),
    ("observation back", &[0]),
    ("heartbeat", &[0]),
    ("carrier_phase", &[0]),
    ("phase_parts", &[0, 33]),
];

const OF_C: [Wanted; 21] = [
    ("version", &[0]),
    ("next", &[0, 1, 2, 32]),
    ("totals", &[0, 32]),
    ("list", &[0, 11, 32]),
    ("collator", &[0, 32, 41, 42]),
    ("feed", &[0, 1, 22, 32, 43, 44, 45, 46, 47]),
    ("growing", &[0, 32]),
    ("enlist", &[0, 32]),
    ("feed grown", &[0, 1, 22, 32, 43, 44, 45, 46, 47]),
    ("read", &[0, 21, 22, 23, 32]),
    ("observation", &[0, 21, 22, 25, 32]),
    ("write", &[0, 21, 22, 23, 32]),
    ("write_obs", &[0, 21, 22, 23, 31, 32]),
    ("flags", &[0, 21]),
    ("index", &[0, 32]),
    ("extend", &[0, 32, 51, 52]),
    ("first", &[0, 1, 32, 51]),
    ("count", &[0, 21, 32]),
    ("extend made up", &[0, 32, 51, 52]),
    ("first made up", &[0, 1, 32, 51]),
    ("count made up", &[0, 21, 32]),
];

const OF_RUST: [Wanted; 16] = [
    ("next", &[0, 1, 2]),
    ("totals", &[0]),
    ("list", &[0, 11]),
    ("collator", &[0, 41, 42]),
    ("feed", &[0, 1, 22, 43, 44, 45, 46, 47]),
    ("growing", &[0]),
    ("feed grown", &[0, 1, 22, 43, 44, 45, 46, 47]),
    ("read", &[0, 21, 22, 23]),
    ("observation", &[0, 21, 22, 25]),
    ("flags", &[0]),
    ("write", &[0, 23, 32]),
    ("write_obs", &[0, 31, 32]),
    ("index", &[0]),
    ("extend", &[0, 52]),
    ("first", &[0, 1]),
    ("count", &[0, 21]),
];

/// What writes, and whose numbers its frames are to go out under.
const SENT: [(&str, &[Source]); 4] = [
    ("write", &[Given, Own, Client]),
    ("write_obs", &[Given, Own]),
    ("write_log", &[Given, Own]),
    ("write_frame", &[Given, Own, Client]),
];

const RANGED: [u16; 6] = [0x0100, 0x0200, 0x0201, 0x0202, 0x0203, 0x0207];
const WITHOUT_FIELDS: [u16; 2] = [0x00A1, 0x00A6];
/// Doubles, which take any number.
const ANY_NUMBERS: [u16; 2] = [0x0044, 0x0048];

/// A name and the answers, each with its times.
fn line(name: &str, times: &BTreeMap<u8, u64>) {
    let each: Vec<String> = times.iter().map(|(no, n)| format!("{no} {n} x")).collect();
    let all: u64 = times.values().sum();
    println!("{name}: {all} calls: {}", each.join(", "));
}

/// A line for each function, for each message, and for each refusal.
pub fn report(asked: &Asked) {
    let mut by_name: BTreeMap<&str, BTreeMap<u8, u64>> = BTreeMap::new();
    let mut refusals: BTreeMap<u8, u64> = BTreeMap::new();
    for (&(name, number), times) in &asked.times {
        *by_name.entry(name).or_default().entry(number).or_default() += times;
        if number > 2 {
            *refusals.entry(number).or_default() += times;
        }
    }
    by_name.iter().for_each(|(name, times)| line(name, times));
    for kind in TYPES {
        for name in ["read", "write"] {
            let of = |number| (kind, name, number);
            let of = asked.times_of.range(of(0)..=of(u8::MAX));
            let times: BTreeMap<u8, u64> = of.map(|(&(_, _, no), &n)| (no, n)).collect();
            if !times.is_empty() {
                line(&format!("{kind:#06x} {name}"), &times);
            }
        }
    }
    line("refusals", &refusals);
    for ((name, source), times) in &asked.times_sent {
        println!("{name} as {}: {times} frames", source.name());
    }
}

/// The answers that a message is to give, read and written.
fn of_message(side: Side, kind: u16) -> Vec<(&'static str, u8)> {
    let mut wanted = vec![("read", 0), ("read", 22)];
    let tail = kind == OBS_TYPE || kind == Log::TYPE;
    if !tail {
        wanted.extend([("write", 0), ("write", 32)]);
    }
    if RANGED.contains(&kind) {
        wanted.extend([("read", 23), ("write", 23)]);
    }
    if kind == Log::TYPE {
        wanted.push(("read", 23));
    }
    if side == Side::C && !WITHOUT_FIELDS.contains(&kind) {
        wanted.push(("read", 32));
    }
    if side == Side::C && tail {
        wanted.push(("write", 21));
    } else if side == Side::C {
        wanted.push(("write", 22));
        if !WITHOUT_FIELDS.contains(&kind) && !ANY_NUMBERS.contains(&kind) {
            wanted.push(("write", 23));
        }
    }
    wanted
}

/// Prints which answers never came; how many they are.
pub fn missing(asked: &Asked) -> u64 {
    let of_side: &[Wanted] = match asked.side {
        Side::C => &OF_C,
        Side::Rust => &OF_RUST,
    };
    let mut missing = 0;
    for (name, numbers) in OF_BOTH.iter().chain(of_side) {
        for number in *numbers {
            if !asked.times.contains_key(&(name, *number)) {
                println!("not reached: {name} {number}");
                missing += 1;
            }
        }
    }
    for (name, sources) in SENT {
        for &source in sources {
            if !asked.times_sent.contains_key(&(name, source)) {
                println!("not reached: {name} as {}", source.name());
                missing += 1;
            }
        }
    }
    for kind in TYPES {
        for (name, number) in of_message(asked.side, kind) {
            if !asked.times_of.contains_key(&(kind, name, number)) {
                println!("not reached: {kind:#06x} {name} {number}");
                missing += 1;
            }
        }
    }
    missing
}

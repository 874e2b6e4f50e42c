//! An index against a full open reading, made at once and while the capture
//! grows; questions, counts, refusals.

#[macro_use]
mod common;

use common::{Noise, frame, sample};
use yaqtumeer::*;

fn made(capture: &[u8]) -> Index {
    let mut index = Index::new();
    same!("extend", index.extend(capture), Ok(()));
    index
}

/// What a full open reading has, and where it stops.
fn read(capture: &[u8]) -> (Vec<Entry>, u64) {
    let mut frames = Frames::open(capture);
    let entry = |f: Frame| Entry {
        offset: f.at as u64,
        kind: f.kind,
        sender: f.sender,
        length: f.payload.len() as u8,
    };
    let entries = frames.by_ref().map(entry).collect();
    (entries, frames.position() as u64)
}

/// The index has the entries, the position and the counts of a full reading.
fn indexed(what: &str, index: &Index, capture: &[u8]) {
    let (entries, reached) = read(capture);
    let held: Vec<Entry> = index.into_iter().copied().collect();
    same!(format!("{what}, entries"), held, entries);
    same!(format!("{what}, reached"), index.reached(), reached);
    for kind in Message::KINDS {
        let of_kind = entries.iter().filter(|e| e.kind == kind).count() as u64;
        let told = index.count(kind);
        same!(format!("{what}, count of {kind:#06x}"), told, Ok(of_kind));
    }
}

/// Each frame is found at its offset, and the one after it from the next byte
/// on; and so are frames that are not there.
fn found(what: &str, index: &Index, capture: &[u8]) {
    let entries = read(capture).0;
    let absent = [(0x0049, 9), (0xffff, 0), (0x0800, 1228), (0, 0)];
    let pairs = entries.iter().map(|e| (e.kind, e.sender)).chain(absent);
    for (kind, sender) in pairs {
        let edges = entries.iter().flat_map(|e| [e.offset, e.offset + 1]);
        for offset in edges.chain([0, u64::MAX]) {
            let such = |e: &&Entry| (e.kind, e.sender) == (kind, sender) && e.offset >= offset;
            let expected = entries.iter().find(such).copied();
            let what = format!("{what}, {kind:#06x} of {sender} from {offset} on");
            same!(what, index.first(kind, sender, offset), expected);
        }
    }
}

/// Frames of few types and senders among noise, some of them damaged.
fn noisy(noise: &mut Noise) -> Vec<u8> {
    let mut capture = vec![];
    for _ in 0..noise.below(20) {
        let junk = noise.below(20) as usize;
        capture.extend(noise.bytes(junk));
        let kind = [0x0049, 0xffff, 0x0401, 0x0800][noise.below(4) as usize];
        let length = noise.below(60) as usize;
        let mut whole = frame(kind, noise.below(3) as u16, &noise.bytes(length));
        if noise.below(5) == 0 {
            whole[6] ^= 1;
        }
        capture.extend(whole);
    }
    capture
}

#[test]
fn the_sample() {
    let capture = sample();
    let index = made(&capture);
    indexed("the sample", &index, &capture);
    found("the sample", &index, &capture);
    same!("made by default", Index::default(), Index::new());
}

#[test]
fn an_entry_field_by_field() {
    let capture = [b"..".to_vec(), frame(0xa2a1, 0xb2b1, &[0; 0xc1])].concat();
    let index = made(&capture);
    let entry = index.first(0xa2a1, 0xb2b1, 2).expect("it is there");
    same!("offset", entry.offset, 2);
    same!("kind", entry.kind, 0xa2a1);
    same!("sender", entry.sender, 0xb2b1);
    same!("length", entry.length, 0xc1);
}

/// The layout that C has: no field may move, and the next entry begins after 16
/// bytes.
#[test]
fn the_entry_that_c_has() {
    same!("size", size_of::<Entry>(), 16);
    same!("offset", std::mem::offset_of!(Entry, offset), 0);
    same!("kind", std::mem::offset_of!(Entry, kind), 8);
    same!("sender", std::mem::offset_of!(Entry, sender), 10);
    same!("length", std::mem::offset_of!(Entry, length), 12);
}

/// In pieces of 0 to 300 bytes; whole, and with what was read left out.
#[test]
fn a_capture_that_grows() {
    let mut noise = Noise(0x5eed_0005);
    for round in 0..60 {
        let capture = [noisy(&mut noise), sample(), noisy(&mut noise)].concat();
        let (mut whole, mut rest, mut end) = (Index::new(), Index::new(), 0);
        while end < capture.len() {
            end = capture.len().min(end + noise.below(301) as usize);
            let now = &capture[..end];
            same!("extend", whole.extend(now), Ok(()));
            // nothing that was read, or some of it
            let before = rest.reached() - noise.below(20).min(rest.reached());
            let told = rest.extend_after(before, &now[before as usize..]);
            same!("extend_after", told, Ok(()));
            let what = format!("round {round}, {end} bytes");
            same!(format!("{what}, as made afresh"), whole, made(now));
            same!(format!("{what}, with bytes left out"), rest, whole);
            same!("extended by nothing", whole.clone().extend(now), Ok(()));
        }
        indexed(&format!("round {round}"), &whole, &capture);
    }
}

#[test]
fn questions_among_noise() {
    let mut noise = Noise(0x5eed_0006);
    for round in 0..60 {
        let capture = noisy(&mut noise);
        found(&format!("round {round}"), &made(&capture), &capture);
    }
}

/// Far longer than what is read in one call: as many frames as have room in it,
/// frames that stand across its end, and nothing but their beginnings.
#[test]
fn long_captures() {
    let shortest = frame(0x00a1, 7, &[]).repeat(100_000);
    let longest = frame(0x0401, 7, &[0x55; 255]).repeat(2000);
    let begun = [0x55; 200_000].to_vec();
    for capture in [shortest, longest, begun, sample().repeat(100)] {
        let what = format!("{} bytes", capture.len());
        indexed(&what, &made(&capture), &capture);
    }
}

#[test]
fn counts_of_all_types() {
    let capture: Vec<u8> = (0..=u16::MAX)
        .flat_map(|kind| frame(kind, 1, &[]))
        .collect();
    let index = made(&capture);
    for kind in 0..=u16::MAX {
        // a payload that is refused is a frame's all the same
        let expected = match Message::KINDS.contains(&kind) {
            true => Ok(1),
            false => Err(Refusal::UnknownType),
        };
        same!(format!("count of {kind:#06x}"), index.count(kind), expected);
    }
}

#[test]
fn a_capture_that_is_shorter() {
    let capture = [sample(), vec![0; 300]].concat();
    let index = made(&capture);
    same!("reached", index.reached(), capture.len() as u64);
    for length in [capture.len() - 1, 100, 0] {
        let (mut whole, mut rest) = (index.clone(), index.clone());
        let told = whole.extend(&capture[..length]);
        same!("shorter", told, Err(Refusal::CaptureShort));
        let told = rest.extend_after(length as u64, &[]);
        same!("shorter, left out", told, Err(Refusal::CaptureShort));
        same!("a refusal moves nothing", (&whole, &rest), (&index, &index));
    }
    let (mut longer, more) = (index.clone(), [&capture[..], &frame(1, 2, &[])].concat());
    same!("goes on", longer.extend(&more), Ok(()));
    same!("as made afresh", longer, made(&more));
}

/// A frame that has not come whole may be cut and come otherwise.
#[test]
fn what_was_not_reached_may_change() {
    let (one, other) = (frame(0x0049, 1, &[1; 30]), frame(0xffff, 2, &[2; 9]));
    let mut index = made(&[&one[..], &one[..20]].concat());
    let capture = [one, other].concat();
    same!("extend", index.extend(&capture), Ok(()));
    same!("as made afresh", index, made(&capture));
}

#[test]
#[should_panic(expected = "no byte is left out that was not read")]
fn bytes_that_were_not_read() {
    let _ = made(b"four").extend_after(5, &[]);
}

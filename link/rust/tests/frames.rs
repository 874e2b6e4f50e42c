//! Frames and their counts: the sample and noise, against a reading written
//! here step by step, and against the counts of the whole capture in one call.

#[macro_use]
mod common;

use common::{Noise, WRITER, crc, frame, sample};
use yaqtumeer::*;

/// Offset, type, sender, payload and CRC of each frame; the counts; where the
/// reading ends and, where it waits for more, how much it needs from there.
#[derive(Debug, PartialEq)]
struct Reading {
    frames: Vec<(usize, u16, u16, Vec<u8>, u16)>,
    counts: Counts,
    position: usize,
    needs: Option<usize>,
}

fn expected(capture: &[u8], opened: bool) -> Reading {
    let mut reading = Reading {
        frames: vec![],
        counts: Counts::default(),
        position: 0,
        needs: None,
    };
    while let Some(rest) = capture.get(reading.position..).filter(|r| !r.is_empty()) {
        let two = |at: usize| u16::from_le_bytes([rest[at], rest[at + 1]]);
        let size = if rest.len() < 6 {
            6
        } else {
            usize::from(rest[5]) + 8
        };
        if rest[0] != 0x55 {
            reading.counts.junk += 1;
        } else if rest.len() < size {
            if opened {
                reading.needs = Some(size);
                break;
            }
            reading.counts.short += 1;
        } else if crc(0, &rest[1..size - 2]) != two(size - 2) {
            reading.counts.bad += 1;
        } else {
            let payload = rest[6..size - 2].to_vec();
            let found = (reading.position, two(1), two(3), payload, two(size - 2));
            reading.frames.push(found);
            reading.counts.framed += size as u64;
            reading.position += size - 1;
        }
        reading.position += 1;
    }
    reading
}

fn seen(mut frames: Frames<'_>) -> Reading {
    let found = frames.by_ref();
    let found = found
        .map(|f| (f.at, f.kind, f.sender, f.payload.to_vec(), f.crc))
        .collect();
    Reading {
        frames: found,
        counts: frames.counts(),
        position: frames.position(),
        needs: frames.needs(),
    }
}

fn read_alike(what: &str, capture: &[u8]) {
    let closed = seen(Frames::closed(capture));
    same!(format!("{what}, closed"), closed, expected(capture, false));
    same!(format!("{what}, totals"), closed.counts, totals(capture));
    same!(
        format!("{what}, total"),
        closed.counts.total(),
        capture.len() as u64
    );
    let open = seen(Frames::open(capture));
    same!(format!("{what}, open"), open, expected(capture, true));
    same!(
        format!("{what}, open total"),
        open.counts.total(),
        open.position as u64
    );
}

#[test]
fn the_sample() {
    let capture = sample();
    read_alike("the sample", &capture);
    let counts = seen(Frames::closed(&capture)).counts;
    same!(
        "its counts",
        counts,
        Counts {
            framed: 5772,
            junk: 140,
            bad: 4,
            short: 1
        }
    );
}

#[test]
fn captures_with_edges() {
    let save = frame(0x00a1, 7, &[]);
    let longest = frame(0x0401, 7, &[0x55; 255]);
    read_alike("nothing", b"");
    read_alike("no 0x55", b"no frame");
    read_alike("all 0x55", &[0x55; 1000]);
    read_alike("eight bytes", &[0x55, 0, 0, 0, 0, 0, 0, 0]);
    read_alike("two frames", &[save.clone(), longest.clone()].concat());
    // a bad frame that has a true one inside
    let mut outer = frame(0x0800, 7, &save);
    *outer.last_mut().unwrap() ^= 1;
    read_alike("a frame in a bad one", &outer);
    same!("frames in it", seen(Frames::closed(&outer)).frames.len(), 1);
}

#[test]
fn every_cut_of_a_frame() {
    // the bytes after the cut are in memory, but not lent
    let whole = [b"xx".to_vec(), frame(0x0049, 1228, &[0x55; 23])].concat();
    for cut in 0..=whole.len() {
        read_alike(&format!("cut at {cut}"), &whole[..cut]);
    }
}

#[test]
fn noise() {
    let mut noise = Noise(0x5eed_0002);
    for round in 0..300 {
        let mut capture = vec![];
        for _ in 0..noise.below(8) {
            let junk = noise.below(40) as usize;
            capture.extend(noise.bytes(junk));
            let length = noise.below(256) as usize;
            let mut whole = frame(
                noise.number() as u16,
                noise.number() as u16,
                &noise.bytes(length),
            );
            if noise.below(4) == 0 {
                let place = noise.below(whole.len() as u64) as usize;
                whole[place] ^= 1 << noise.below(8);
            }
            capture.extend(whole);
        }
        let keep = capture.len() - noise.below(20).min(capture.len() as u64) as usize;
        read_alike(&format!("noise {round}"), &capture[..keep]);
    }
}

#[test]
fn a_frame_field_by_field() {
    let capture = [b"..".to_vec(), frame(0xa2a1, 0xb2b1, &[0xc1, 0xc2, 0xc3])].concat();
    let found = Frames::closed(&capture).next().unwrap();
    same!("at", found.at, 2);
    same!("kind", found.kind, 0xa2a1);
    same!("sender", found.sender, 0xb2b1);
    same!("payload", found.payload, [0xc1, 0xc2, 0xc3]);
    same!(
        "payload's place",
        found.payload.as_ptr(),
        capture[8..].as_ptr()
    );
    same!("crc", found.crc, crc(0, &capture[3..11]));
    same!("size", found.size(), 11);
    same!("answer", found.answer(), Err(Refusal::UnknownType));
    same!("message", found.message(), Err(Refusal::UnknownType));
}

#[test]
fn a_frame_answers_for_its_payload() {
    let started = Startup {
        reserved: 0xa4a3a2a1,
    };
    let capture = started.frame(WRITER).unwrap();
    let found = Frames::closed(&capture).next().unwrap();
    same!("answer", found.answer(), Ok(()));
    same!("message", found.message(), Ok(Message::Startup(started)));
    let capture = frame(0xff00, 1, &[0; 5]);
    let found = Frames::closed(&capture).next().unwrap();
    same!("answer", found.answer(), Err(Refusal::WrongLength));
    same!("message", found.message(), Err(Refusal::WrongLength));
}

#[test]
fn counts_while_it_goes() {
    let capture = [
        b"abc".to_vec(),
        frame(1, 2, &[3]),
        b"de".to_vec(),
        frame(4, 5, &[]),
    ]
    .concat();
    let mut frames = Frames::closed(&capture);
    let mut expected = Counts::default();
    same!(
        "at first",
        (frames.counts(), frames.position()),
        (expected, 0)
    );
    frames.next();
    expected.junk += 3;
    expected.framed += 9;
    same!(
        "after one",
        (frames.counts(), frames.position()),
        (expected, 12)
    );
    frames.next();
    expected.junk += 2;
    expected.framed += 8;
    same!(
        "after two",
        (frames.counts(), frames.position()),
        (expected, 22)
    );
}

#[test]
fn the_end_is_the_end() {
    for mut frames in [Frames::closed(b"\x55junk"), Frames::open(b"junk\x55")] {
        same!("no frame", frames.next(), None);
        let (counts, position, needs) = (frames.counts(), frames.position(), frames.needs());
        same!("no frame again", frames.next(), None);
        same!("the same counts", frames.counts(), counts);
        same!(
            "the same place",
            (frames.position(), frames.needs()),
            (position, needs)
        );
    }
}

#[test]
fn from_a_position_on() {
    let capture = [frame(1, 2, &[]), frame(3, 4, &[5])].concat();
    let mut frames = Frames::closed(&capture).starting_at(8);
    same!(
        "the second",
        frames.next().map(|f| (f.at, f.kind)),
        Some((8, 3))
    );
    same!("framed", frames.counts().framed, 9);
    for past in [17, 18, usize::MAX] {
        let mut frames = Frames::open(&capture).starting_at(past);
        same!(format!("from {past}"), frames.next(), None);
        same!(
            format!("from {past}"),
            (frames.needs(), frames.counts().total()),
            (None, 0)
        );
    }
}

#[test]
fn a_capture_that_comes_in_parts() {
    let capture = sample();
    for part in [1, 7, 64, 1000] {
        let (mut position, mut counts, mut found) = (0, Counts::default(), vec![]);
        for end in (0..capture.len()).step_by(part).chain([capture.len()]) {
            let mut frames = Frames::open(&capture[..end]).starting_at(position);
            found.extend(frames.by_ref().map(|f| f.at));
            position = frames.position();
            counts += frames.counts();
        }
        let mut rest = Frames::closed(&capture).starting_at(position);
        found.extend(rest.by_ref().map(|f| f.at));
        same!(
            format!("counts by {part}"),
            counts + rest.counts(),
            totals(&capture)
        );
        let whole: Vec<_> = Frames::closed(&capture).map(|f| f.at).collect();
        same!(format!("frames by {part}"), found, whole);
    }
}

#[test]
fn counts_add_up() {
    let one = Counts {
        framed: 1,
        junk: 20,
        bad: 300,
        short: 4000,
    };
    let two = Counts {
        framed: 5,
        junk: 60,
        bad: 700,
        short: 8000,
    };
    same!(
        "together",
        one + two,
        Counts {
            framed: 6,
            junk: 80,
            bad: 1000,
            short: 12000
        }
    );
    same!("total", one.total(), 4321);
    let mut sum = one;
    sum += two;
    same!("added", sum, one + two);
}

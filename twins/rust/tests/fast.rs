//! The fast variants give what the plain ones give.

use twin::crc::crc;
use twin::epochs::Outcome;
use twin::fast::{closed, crc_sliced, crc_table, listing_into, read_row, write_row};
use twin::frames::Writer;
use twin::gen::{self, broken_range, off_length, valid, Rng};
use twin::listing::listing;
use twin::messages::{EphemerisGps, Field, Message};

/// No row is longer.
const MOST: usize = EphemerisGps::NUMBERS;

#[test]
fn crcs_agree() {
    let mut rng = Rng::new(4);
    for length in 0..600 {
        let bytes = rng.bytes(length);
        for start in [0, 1, 65535, rng.word() as u16] {
            let expected = crc(start, &bytes);
            assert_eq!(crc_table(start, &bytes), expected);
            assert_eq!(crc_sliced(start, &bytes), expected);
        }
    }
}

/// The CRC of two parts joined is that of the second begun at the first's.
#[test]
fn crcs_go_on() {
    let bytes = Rng::new(6).bytes(255);
    let parts = [&[], &bytes[..1], &bytes];
    for crc in [crc, crc_table, crc_sliced] {
        for cut in 0..=9 {
            let (first, second) = b"123456789".split_at(cut);
            // The published values from these two starts.
            assert_eq!(crc(crc(0, first), second), 0x31C3, "cut at {cut}");
            assert_eq!(crc(crc(65535, first), second), 0x29B1, "cut at {cut}");
        }
        for start in [0, 1, 65535] {
            for first in parts {
                for second in parts {
                    let joined = [first, second].concat();
                    assert_eq!(crc(crc(start, first), second), crc(start, &joined));
                }
            }
        }
    }
}

#[test]
fn readings_and_listings_agree() {
    let mut fast = Vec::new();
    for seed in 0..2000 {
        let capture = gen::capture(seed);
        let expected = listing(&capture);
        listing_into(crc_table, &capture, &mut fast);
        assert!(fast == expected.as_bytes(), "seed {seed}");
        listing_into(crc_sliced, &capture, &mut fast);
        assert!(fast == expected.as_bytes(), "seed {seed}, sliced");

        let counts = closed(crc_table, &capture);
        assert_eq!(counts, closed(crc_sliced, &capture));
        let reading = twin::frames::closed(&capture);
        assert_eq!(counts.frames, reading.frames.len());
        assert_eq!(counts.frame_bytes, reading.counts.frame_bytes);
        assert_eq!(counts.junk, reading.counts.junk);
        assert_eq!(counts.bad, reading.counts.bad);
        assert_eq!(counts.short, reading.counts.short);
    }
}

#[test]
fn collators_agree() {
    let (mut epochs, mut refused, mut copies) = (0, 0, 0);
    for seed in 0..2000 {
        let capture = gen::capture(seed);
        let reading = twin::frames::closed(&capture);
        // Of the capture's senders every other, so that 43 comes too.
        let mut senders: Vec<u16> = reading.frames.iter().map(|f| f.sender).collect();
        senders.sort();
        senders.dedup();
        let roster: Vec<u16> = senders.into_iter().step_by(2).take(8).collect();
        let Ok(mut plain) = twin::epochs::Collator::new(&roster) else {
            assert_eq!(twin::fast::Collator::new(&roster).err(), Some(41));
            continue;
        };
        let mut fast = twin::fast::Collator::new(&roster).expect("it is made");
        for frame in &reading.frames {
            let fed = plain.feed(frame.msg_type, frame.sender, frame.payload);
            plain = fed.collator;
            match (
                fed.outcome,
                fast.feed(frame.msg_type, frame.sender, frame.payload),
            ) {
                (Outcome::Refused(no), Err(theirs)) => {
                    assert_eq!(no, theirs, "seed {seed}");
                    refused += 1;
                    copies += usize::from(no == 47);
                }
                (Outcome::Taken, Ok(None)) => {}
                (Outcome::Epoch(e), Ok(Some(f))) => {
                    assert_eq!((e.sender, e.wn, e.tow), (f.sender, f.wn, f.tow));
                    assert_eq!((e.n, e.observations), (f.n, f.observations.into()));
                    epochs += 1;
                }
                _ => panic!("seed {seed}"),
            }
        }
    }
    assert!(epochs > 1000 && refused > 1000, "{epochs}, {refused}");
    assert!(copies > 500, "{copies}");
}

#[test]
fn rosters() {
    let made = |roster: &[u16]| twin::fast::Collator::new(roster).err();
    assert_eq!(made(&[]), Some(41));
    assert_eq!(made(&[1; 9]), Some(41));
    assert_eq!(made(&[1, 2, 3, 4, 5, 6, 7, 1]), Some(42));
    assert_eq!(made(&[0, 0]), Some(42));
    assert_eq!(made(&[0, 65535]), None);
}

#[test]
fn input_lengths() {
    assert_eq!(listing(&[]), "T 0 0 0 0 0\n");
    assert_eq!(listing(&[0x55]), "T 1 0 0 0 1\n");
    assert_eq!(listing(&[0; 65536]), "T 65536 0 65536 0 0\n");
    assert_eq!(listing(&[0; 65537]), "R 11\n");
}

#[test]
fn rows_agree() {
    let mut rng = Rng::new(5);
    for turn in 0..20_000 {
        let known = rng.pick(&gen::TYPES);
        let msg_type = if turn % 9 == 0 { known ^ 1 } else { known };
        let payload = match rng.below(3) {
            0 => off_length(&mut rng, known),
            1 => broken_range(&mut rng, known).unwrap_or_default(),
            _ => valid(&mut rng, known),
        };
        let mut row = [7; MOST + 1];
        let any = rng.between(0, MOST + 1);
        let room = rng.pick(&[any, MOST, MOST + 1]);
        let told = read_row(msg_type, &payload, &mut row[..room]);
        let mut numbers = match Message::read(msg_type, &payload).map(|m| m.row()) {
            Ok(expected) if expected.len() <= room => {
                assert_eq!(told, 0);
                assert_eq!(row[..expected.len()], expected);
                assert!(row[expected.len()..].iter().all(|&n| n == 7));
                expected
            }
            refused => {
                assert_eq!(told, refused.err().unwrap_or(32));
                assert_eq!(row, [7; MOST + 1]);
                vec![7; room]
            }
        };
        if rng.chance(1, 3) && !numbers.is_empty() {
            let at = rng.below(numbers.len());
            numbers[at] = rng.word() >> rng.below(64);
        }
        let writer = Writer {
            own: rng.word() as u16,
            given: rng.chance(1, 2).then(|| rng.word() as u16),
        };
        let mut ours = vec![0; rng.pick(&[20, 40, 120, 200]) + rng.below(3)];
        let mut fast = ours.clone();
        let written = Message::of_row(msg_type, &numbers).and_then(|m| m.write(writer, &mut ours));
        let theirs = write_row(crc_table, &mut fast, msg_type, writer, &numbers);
        assert_eq!((written, ours), (theirs, fast), "{msg_type} {numbers:x?}");
    }
}

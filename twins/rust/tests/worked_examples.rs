//! The worked examples of document 01, each one.

use twin::crc::{crc, frame_crc};
use twin::epochs::{Collator, Epoch, Outcome};
use twin::frames::{closed, open, step, Counts, Step, Writer};
use twin::messages::*;

/// 003 section 4.
const EXAMPLE: [u8; 28] = [
    0x55, 0x02, 0x02, 0xcc, 0x04, 0x14, 0x70, 0x3d, 0xd0, 0x18, 0xcf, 0xef, 0xff, 0xff, 0xef, 0xe8,
    0xff, 0xff, 0xf0, 0x18, 0x00, 0x00, 0x00, 0x00, 0x05, 0x00, 0x43, 0x94,
];

#[test]
fn crc_values() {
    assert_eq!(crc(0, b""), 0);
    assert_eq!(crc(0, b"123456789"), 0x31C3);
    // The published value of 003's example frame.
    assert_eq!(crc(0, &EXAMPLE[1..26]), 0x9443);
}

/// The same frame in two buffers (P3), whatever stands for the preamble.
#[test]
fn frame_crc_values() {
    let mut header = EXAMPLE[..6].to_vec();
    assert_eq!(frame_crc(&header, &EXAMPLE[6..26]), 0x9443);
    header[0] = 0;
    assert_eq!(frame_crc(&header, &EXAMPLE[6..26]), 0x9443);
    assert_eq!(frame_crc(&EXAMPLE[..26], &[]), 0x9443);
    assert_eq!(frame_crc(&[], &EXAMPLE[1..26]), 0x9443);
}

#[test]
fn example_frame() {
    let Step::Frame(frame) = step(&EXAMPLE, 0) else {
        panic!("no frame");
    };
    assert_eq!(
        (frame.offset, frame.msg_type, frame.sender),
        (0, 0x0202, 1228)
    );
    assert_eq!(frame.payload, &EXAMPLE[6..26]);
    let record = BaselineEcef {
        tow: 416_300_400,
        x: -4145,
        y: -5905,
        z: 6384,
        accuracy: 0,
        n_sats: 5,
        flags: 0,
    };
    assert_eq!(BaselineEcef::read(frame.payload), Ok(record));
    let mut out = [0; 28];
    assert_eq!(record.write(Writer::new(1228), &mut out), Ok(28));
    assert_eq!(out, EXAMPLE);
}

#[test]
fn example_frame_with_last_byte_95() {
    let mut changed = EXAMPLE;
    changed[27] = 0x95;
    assert_eq!(step(&changed, 0), Step::Bad);
    // It goes on at 1, where there is junk.
    assert_eq!(step(&changed, 1), Step::Junk);
    let counts = closed(&changed).counts;
    assert_eq!((counts.bad, counts.junk, counts.short), (1, 27, 0));
}

#[test]
fn frame_of_zeros() {
    let capture = [0x55, 0, 0, 0, 0, 0, 0, 0];
    let Step::Frame(frame) = step(&capture, 0) else {
        panic!("no frame");
    };
    assert_eq!(
        (frame.msg_type, frame.sender, frame.payload.len()),
        (0, 0, 0)
    );
    assert_eq!(answer(frame.msg_type, frame.payload), 21);
}

#[test]
fn empty_capture() {
    assert_eq!(step(&[], 0), Step::Finished);
    let reading = closed(&[]);
    assert!(reading.frames.is_empty());
    assert_eq!(reading.counts, Counts::default());
}

#[test]
fn five_bytes() {
    let capture = [0x55, 0, 0, 0, 0];
    let opened = open(&capture, 0);
    assert_eq!((opened.at, opened.needed), (0, Some(6)));
    let counts = closed(&capture).counts;
    assert_eq!(
        counts,
        Counts {
            short: 1,
            junk: 4,
            ..Counts::default()
        }
    );
}

#[test]
fn obs_lengths() {
    assert_eq!(observation_count(&[0; 6]), Err(22));
    assert_eq!(observation_count(&[0; 7]), Ok(0));
    assert_eq!(observation_count(&[0; 8]), Err(22));
    assert_eq!(observation_count(&[0; 247]), Ok(15));
    assert_eq!(observation_count(&[0; 263]), Err(22));
    for (length, no) in [(6, 22), (7, 0), (8, 22), (247, 0)] {
        assert_eq!(answer(0x0049, &vec![0; length]), no);
    }
}

#[test]
fn n_obs_values() {
    for (n_obs, expected) in [
        (0x00, Outcome::Refused(44)),
        (0x11, Outcome::Refused(45)),
        (
            0x10,
            Outcome::Epoch(Epoch {
                sender: 9,
                wn: 2,
                tow: 1,
                n: 1,
                observations: 0,
            }),
        ),
    ] {
        let collator = Collator::new(&[9]).unwrap();
        let fed = collator.feed(0x0049, 9, &[1, 0, 0, 0, 2, 0, n_obs]);
        assert_eq!(fed.outcome, expected);
    }
}

#[test]
fn carrier_phase() {
    assert_eq!(phase_from_parts(-3, 128), -640);
    assert_eq!(phase_from_parts(-1, 255), -1);
    assert_eq!(phase_to_parts(-640), Ok((-3, 128)));
    assert_eq!(phase_to_parts(-1), Ok((-1, 255)));
}

#[test]
fn ns_range() {
    for (ns, no) in [
        (500_000i32, 0),
        (500_001, 23),
        (-500_000, 0),
        (-500_001, 23),
    ] {
        let mut payload = [0; 11];
        payload[6..10].copy_from_slice(&ns.to_le_bytes());
        assert_eq!(answer(0x0100, &payload), no);
    }
}

#[test]
fn log_lengths() {
    assert_eq!(Log::read(&[]), Err(22));
    let empty: &[u8] = &[];
    assert_eq!(
        Log::read(&[3]),
        Ok(Log {
            level: 3,
            text: empty,
            padding: 0
        })
    );
}

#[test]
fn sbplist_example() {
    let mut capture = vec![0x00];
    capture.extend_from_slice(&EXAMPLE);
    capture.extend_from_slice(&[
        0x55, 0x49, 0x00, 0x00, 0x00, 0x07, 0xe8, 0x03, 0x00, 0x00, 0x6c, 0x07, 0x10, 0x87, 0x22,
    ]);
    capture.push(0x55);
    assert_eq!(capture.len(), 45);
    let expected = "F 1 514 1228 20 0\nF 29 73 0 7 0\nE 0 1900 1000 1 0\nT 45 43 1 0 1\n";
    assert_eq!(twin::listing::listing(&capture), expected);
    let mut fast = Vec::new();
    twin::fast::listing_into(twin::fast::crc_table, &capture, &mut fast);
    assert_eq!(fast, expected.as_bytes());
}

//! Who a frame goes out as (request P6), by every way to write one.

use twin::fast::{crc_table, write_row};
use twin::frames::{closed, write, Writer};
use twin::gen::{valid, Rng, TYPES};
use twin::listing::listing;
use twin::messages::*;
use twin::numbers::No;

const CLIENT: u16 = 0x42;

/// Any number that might be taken for special is an ordinary one.
const OWN: [u16; 4] = [0, CLIENT, 1228, 65535];
const GIVEN: [u16; 4] = [0, CLIENT, 7, 65535];

type Way = (&'static str, fn(Writer, &mut [u8]) -> Result<usize, No>);

/// Given no sender these go out under the recorder's own number,
const AS_OWN: [Way; 5] = [
    ("LOG", log),
    ("POS_ECEF", |writer, out| row(0x0200, &[0; 7], writer, out)),
    ("OBS", |writer, out| obs(0x10, writer, out)),
    ("raw 0x00A0", |writer, out| write(0x00A0, writer, b"", out)),
    ("raw 0x0800", |writer, out| write(0x0800, writer, b"", out)),
];

/// and these as 0x42.
const AS_CLIENT: [Way; 4] = [
    ("READ_BY_INDEX_REQ", |writer, out| {
        row(0x00A2, &[5], writer, out)
    }),
    ("SETTINGS_SAVE", |writer, out| row(0x00A1, &[], writer, out)),
    ("raw 0x00A2", |writer, out| write(0x00A2, writer, b"", out)),
    ("raw 0x00A1", |writer, out| write(0x00A1, writer, b"", out)),
];

fn log(writer: Writer, out: &mut [u8]) -> Result<usize, No> {
    let log = Log {
        level: 6,
        text: b"ab",
        padding: 1,
    };
    log.write(writer, out)
}

fn obs(n_obs: u8, writer: Writer, out: &mut [u8]) -> Result<usize, No> {
    let header = ObsHeader {
        tow: 1000,
        wn: 1900,
        n_obs,
    };
    write_obs(&header, &[], writer, out)
}

/// A message without a tail; the fast writer's frame is the same.
fn row(msg_type: u16, row: &[u64], writer: Writer, out: &mut [u8]) -> Result<usize, No> {
    let mut fast = out.to_vec();
    let written = Message::of_row(msg_type, row)?.write(writer, out);
    let theirs = write_row(crc_table, &mut fast, msg_type, writer, row);
    assert_eq!((&written, &*out), (&theirs, &*fast));
    written
}

fn frame(way: Way, writer: Writer) -> Vec<u8> {
    let mut out = vec![0; 263];
    let size = way.1(writer, &mut out).unwrap();
    out.truncate(size);
    out
}

/// The sender of a single frame.
fn sender(bytes: &[u8]) -> u16 {
    let reading = closed(bytes);
    assert_eq!(reading.frames.len(), 1);
    assert_eq!(reading.counts.frame_bytes, bytes.len());
    reading.frames[0].sender
}

#[test]
fn no_sender_given() {
    for own in OWN {
        for (ways, expected) in [(&AS_OWN[..], own), (&AS_CLIENT[..], CLIENT)] {
            for &way in ways {
                let written = frame(way, Writer::new(own));
                assert_eq!(sender(&written), expected, "{} of {own}", way.0);
            }
        }
    }
}

#[test]
fn a_sender_given() {
    for own in OWN {
        for given in GIVEN {
            for way in AS_OWN.into_iter().chain(AS_CLIENT) {
                let written = frame(way, Writer::new(own).named(given));
                assert_eq!(sender(&written), given, "{} of {own}", way.0);
            }
        }
    }
}

/// Of all types two go out as 0x42.
#[test]
fn every_type_as_a_raw_frame() {
    let mut as_client = Vec::new();
    for msg_type in 0..=u16::MAX {
        let mut out = [0; 8];
        write(msg_type, Writer::new(1228), &[], &mut out).unwrap();
        match sender(&out) {
            CLIENT => as_client.push(msg_type),
            other => assert_eq!(other, 1228),
        }
    }
    assert_eq!(as_client, [0x00A1, 0x00A2]);
}

/// A message's own writer and the raw one agree about the sender.
#[test]
fn every_message_by_both_ways() {
    let mut rng = Rng::new(7);
    for msg_type in TYPES {
        let payload = valid(&mut rng, msg_type);
        let message = Message::read(msg_type, &payload).unwrap();
        for own in OWN {
            let writer = Writer::new(own);
            let (mut typed, mut raw) = ([0; 263], [0; 263]);
            message.write(writer, &mut typed).unwrap();
            write(msg_type, writer, &payload, &mut raw).unwrap();
            assert_eq!(typed, raw);
        }
    }
}

/// By turns, packets of one time: as one sender's they would be one epoch.
#[test]
fn two_recorders_on_one_line() {
    let mut line = Vec::new();
    for n_obs in [0x20, 0x21] {
        for own in [1228, 1229] {
            let mut out = [0; 15];
            obs(n_obs, Writer::new(own), &mut out).unwrap();
            line.extend(out);
        }
    }
    let expected = "F 0 73 1228 7 0\nF 15 73 1229 7 0\n\
        F 30 73 1228 7 0\nE 1228 1900 1000 2 0\n\
        F 45 73 1229 7 0\nE 1229 1900 1000 2 0\n\
        T 60 60 0 0 0\n";
    assert_eq!(listing(&line), expected);
}

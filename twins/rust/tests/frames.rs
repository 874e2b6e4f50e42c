//! Finding, resuming and writing frames.

use twin::frames::{closed, open, step, write, Step, Writer};
use twin::gen;

#[test]
fn closed_counts_add_up() {
    for seed in 0..600 {
        let capture = gen::capture(seed);
        let reading = closed(&capture);
        let c = reading.counts;
        assert_eq!(c.frame_bytes + c.junk + c.bad + c.short, capture.len());
        let sizes: usize = reading.frames.iter().map(|f| f.size()).sum();
        assert_eq!(sizes, c.frame_bytes);
    }
}

/// Reading a capture as it grows gives the frames that closed reading gives,
/// as far as no short was passed over.
#[test]
fn open_reading_goes_on_where_it_stopped() {
    for seed in 0..300 {
        let capture = gen::capture(seed);
        let capture = &capture[..capture.len().min(3000)];
        let whole = open(capture, 0);
        let mut frames = Vec::new();
        let mut at = 0;
        let mut have = 0;
        while have < capture.len() {
            let part = open(&capture[..have], at);
            frames.extend(part.frames.iter().map(|f| f.offset));
            at = part.at;
            have = match part.needed {
                Some(needed) => {
                    assert!(at + needed > have);
                    at + needed
                }
                None => have + 7,
            };
        }
        let last = open(capture, at);
        frames.extend(last.frames.iter().map(|f| f.offset));
        let expected: Vec<usize> = whole.frames.iter().map(|f| f.offset).collect();
        assert_eq!(frames, expected);
        assert_eq!((last.at, last.needed), (whole.at, whole.needed));
    }
}

#[test]
fn short_says_what_is_needed() {
    let needs = |capture: &[u8]| match step(capture, 0) {
        Step::Short { needed } => Some(needed),
        _ => None,
    };
    assert_eq!(needs(&[0x55]), Some(6));
    assert_eq!(needs(&[0x55, 1, 2, 3, 4]), Some(6));
    assert_eq!(needs(&[0x55, 1, 2, 3, 4, 0]), Some(8));
    assert_eq!(needs(&[0x55, 1, 2, 3, 4, 255]), Some(263));
    assert_eq!(needs(&[0x54, 1, 2, 3, 4, 255]), None);
    assert_eq!(step(&[0x55], 1), Step::Finished);
    assert_eq!(step(&[0x55], 2), Step::Finished);
}

#[test]
fn a_true_frame_inside_a_bad_one_is_found() {
    let mut inner = [0; 20];
    let inner_size = write(0xFFFF, Writer::new(7), &[1, 2, 3, 4], &mut inner).unwrap();
    let mut outer = [0; 40];
    let size = write(0x0800, Writer::new(8), &inner[..inner_size], &mut outer).unwrap();
    // Whole, the outer one alone is a frame.
    let reading = closed(&outer[..size]);
    assert_eq!(reading.frames.len(), 1);
    assert_eq!(reading.frames[0].sender, 8);
    // Damaged, it is passed by one byte and the inner one is found.
    outer[size - 1] ^= 1;
    let reading = closed(&outer[..size]);
    assert_eq!(reading.frames.len(), 1);
    assert_eq!((reading.frames[0].offset, reading.frames[0].sender), (6, 7));
}

#[test]
fn writer_refusals_leave_the_buffer() {
    let payload = [0x33; 256];
    for (length, room, expected) in [
        (256, 0, Err(31)),
        (256, 300, Err(31)),
        (255, 262, Err(32)),
        (255, 263, Ok(263)),
        (0, 7, Err(32)),
        (0, 8, Ok(8)),
        (4, 20, Ok(12)),
    ] {
        let mut out = vec![0xA7; room];
        let got = write(0x0800, Writer::new(1), &payload[..length], &mut out);
        assert_eq!(got, expected);
        let untouched = got.unwrap_or(0);
        assert!(out[untouched..].iter().all(|&b| b == 0xA7));
        if let Ok(size) = got {
            assert_eq!(closed(&out[..size]).frames.len(), 1);
        }
    }
}

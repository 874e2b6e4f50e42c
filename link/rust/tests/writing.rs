//! Frames of any type, the CRC, whole captures in one call, the version.

#[macro_use]
mod common;

use common::{Noise, WRITER, crc as bit_by_bit, frame, sample, writes};
use yaqtumeer::*;

#[test]
fn frames_of_any_length() {
    let mut noise = Noise(0x5eed_0004);
    for n in 0..=255 {
        let (kind, sender) = (noise.number() as u16, noise.number() as u16);
        let payload = noise.bytes(n);
        let whole = frame(kind, sender, &payload);
        writes("a frame", &whole, |out| {
            write_frame(out, kind, WRITER.named(sender), &payload)
        });
    }
    same!("the longest", LONGEST_FRAME, frame(1, 2, &[3; 255]).len());
}

#[test]
fn crcs() {
    same!("of nothing", crc(0, b""), 0);
    same!("the published check", crc(0, b"123456789"), 0x31c3);
    let mut noise = Noise(0x5eed_0005);
    for n in 0..300 {
        let (start, bytes) = (noise.number() as u16, noise.bytes(n));
        let told = crc(start, &bytes);
        same!(
            format!("of {n} bytes from {start}"),
            told,
            bit_by_bit(start, &bytes)
        );
    }
}

#[test]
fn crcs_of_parts() {
    let mut noise = Noise(0x5eed_0006);
    let text = b"123456789".to_vec();
    let mut cuts: Vec<(Vec<u8>, Vec<u8>)> = (0..=9)
        .map(|at| (text[..at].to_vec(), text[at..].to_vec()))
        .collect();
    for (n, m) in [0, 1, 255]
        .into_iter()
        .flat_map(|n| [(n, 0), (n, 1), (n, 255)])
    {
        cuts.push((noise.bytes(n), noise.bytes(m)));
    }
    for start in [0, 1, 65535] {
        for (first, second) in &cuts {
            let whole = bit_by_bit(start, &[first.clone(), second.clone()].concat());
            let what = format!("of {} and {} bytes from {start}", first.len(), second.len());
            same!(what, crc(crc(start, first), second), whole);
        }
    }
}

#[test]
fn crcs_of_frames_in_two_buffers() {
    let mut noise = Noise(0x5eed_0007);
    for n in 0..=255 {
        let whole = frame(
            noise.number() as u16,
            noise.number() as u16,
            &noise.bytes(n),
        );
        let (header, payload, sent) = (&whole[..6], &whole[6..n + 6], &whole[n + 6..]);
        same!(
            format!("of {n} bytes"),
            frame_crc(header, payload).to_le_bytes()[..],
            *sent
        );
    }
    same!("without a header", frame_crc(b"", b"123456789"), 0x31c3);
    same!("of a preamble", frame_crc(b"U", b"123456789"), 0x31c3);
}

#[test]
fn totals_name_by_name() {
    let damaged = {
        let mut whole = frame(1, 2, &[0; 9]);
        whole[8] ^= 1;
        whole
    };
    let capture = [
        b"abc".to_vec(),
        frame(1, 2, &[0; 5]),
        damaged,
        vec![0x55; 2],
    ]
    .concat();
    // of the damaged frame 0x55 is bad, the other 16 bytes are junk
    let expected = Counts {
        framed: 13,
        junk: 3 + 16,
        bad: 1,
        short: 2,
    };
    same!("totals", totals(&capture), expected);
}

#[test]
fn listings() {
    let example = [
        &[0x00][..],
        &[
            0x55, 0x02, 0x02, 0xcc, 0x04, 0x14, 0x70, 0x3d, 0xd0, 0x18, 0xcf, 0xef, 0xff, 0xff,
            0xef, 0xe8, 0xff, 0xff, 0xf0, 0x18, 0x00, 0x00, 0x00, 0x00, 0x05, 0x00, 0x43, 0x94,
        ],
        &[
            0x55, 0x49, 0x00, 0x00, 0x00, 0x07, 0xe8, 0x03, 0x00, 0x00, 0x6c, 0x07, 0x10, 0x87,
            0x22,
        ],
        &[0x55],
    ]
    .concat();
    let text = "F 1 514 1228 20 0\nF 29 73 0 7 0\nE 0 1900 1000 1 0\nT 45 43 1 0 1\n";
    same!("the example", list(&example), Ok(text.to_string()));
    same!("nothing", list(b""), Ok("T 0 0 0 0 0\n".to_string()));
    same!(
        "65536 bytes",
        list(&[0; 65536]),
        Ok("T 65536 0 65536 0 0\n".to_string())
    );
    same!("a byte more", list(&[0; 65537]), Err(Refusal::TooLong));
}

/// The listing is what frames, answers, epochs and counts come to.
#[test]
fn the_sample_s_listing() {
    let capture = sample();
    let mut frames = Frames::closed(&capture);
    let mut collator = Collator::growing();
    let mut text = String::new();
    for f in &mut frames {
        let answer = f.answer().map_or_else(Refusal::number, |()| 0);
        text += &format!(
            "F {} {} {} {} {answer}\n",
            f.at,
            f.kind,
            f.sender,
            f.payload.len()
        );
        if let Ok(Some(e)) = collator.feed(&f) {
            text += &format!(
                "E {} {} {} {} {}\n",
                e.sender, e.wn, e.tow, e.n, e.observations
            );
        }
    }
    let c = frames.counts();
    text += &format!(
        "T {} {} {} {} {}\n",
        capture.len(),
        c.framed,
        c.junk,
        c.bad,
        c.short
    );
    same!("the sample's listing", list(&capture), Ok(text));
}

#[test]
fn versions() {
    same!(
        "linked",
        version(),
        Version {
            major: 0,
            minor: 14,
            patch: 0
        }
    );
    same!(
        "the crate's",
        version().to_string(),
        env!("CARGO_PKG_VERSION")
    );
    let other = Version {
        major: 1,
        minor: 23,
        patch: 45,
    };
    same!("printed", other.to_string(), "1.23.45");
}

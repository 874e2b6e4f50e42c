//! Refusals by number, name and text; in their order, with nothing written.

#[macro_use]
mod common;

use common::{WRITER, refuses};
use yaqtumeer::*;

#[test]
fn numbers_names_and_texts() {
    let expected = [
        (Refusal::TooLong, 11, "TOO_LONG", "longer than 65536"),
        (Refusal::UnknownType, 21, "UNKNOWN_TYPE", "type"),
        (Refusal::WrongLength, 22, "WRONG_LENGTH", "length"),
        (
            Refusal::OutOfRange,
            23,
            "OUT_OF_RANGE",
            "field is outside its range, or a text has a zero in it",
        ),
        (
            Refusal::NoSuchObservation,
            25,
            "NO_SUCH_OBSERVATION",
            "no observation of that index",
        ),
        (Refusal::TooMuch, 31, "TOO_MUCH", "over 255 bytes"),
        (Refusal::NoRoom, 32, "NO_ROOM", "buffer"),
        (
            Refusal::PhaseOutOfRange,
            33,
            "PHASE_OUT_OF_RANGE",
            "carrier phase",
        ),
        (
            Refusal::WrongRoster,
            41,
            "WRONG_ROSTER",
            "more than eight senders",
        ),
        (Refusal::SenderTwice, 42, "SENDER_TWICE", "sender twice"),
        (Refusal::NotListed, 43, "NOT_LISTED", "not on the roster"),
        (Refusal::NoPackets, 44, "NO_PACKETS", "no packets"),
        (Refusal::WrongCounter, 45, "WRONG_COUNTER", "counter"),
        (Refusal::NotObs, 46, "NOT_OBS", "no observation frame"),
        (Refusal::CounterTwice, 47, "COPY", "come already"),
        (Refusal::ListShort, 51, "LIST_SHORT", "list is shorter"),
        (
            Refusal::CaptureShort,
            52,
            "CAPTURE_SHORT",
            "capture is shorter",
        ),
    ];
    same!("ALL", Refusal::ALL, expected.map(|(refusal, ..)| refusal));
    for (refusal, number, name, words) in expected {
        same!(name, refusal.number(), number);
        same!(name, refusal.name(), name);
        same!(
            format!("{refusal}"),
            refusal.to_string().contains(words),
            true
        );
        let error: Box<dyn std::error::Error> = refusal.into();
        same!(name, error.to_string(), refusal.to_string());
    }
}

/// Every length but the right ones is refused, before a field is looked at.
#[test]
fn lengths() {
    let right = |kind, n: usize| match kind {
        0x0100 => n == 11,
        0x0206 => n == 14,
        0x0200 => n == 32,
        0x0201 => n == 34,
        0x0202 | 0x0204 => n == 20,
        0x0203 | 0x0205 => n == 22,
        0x0207 => n == 10,
        0x0044 | 0x0048 => n == 24,
        0x0049 => n % 16 == 7 && n <= 247,
        0x0081 => n == 185,
        0x0082 | 0x0083 => n == 112,
        0x0090 => n == 70,
        0x0091 => n == 10,
        0x0092 => n == 14,
        0x0401 => (1..=255).contains(&n),
        0x00a1 | 0x00a6 => n == 0,
        0x00a2 => n == 2,
        0xff00 | 0xffff => n == 4,
        _ => unreachable!("no other type has a reading"),
    };
    for kind in Message::KINDS {
        for n in 0..300 {
            // all bits set is outside every range
            let told = Message::read(kind, &vec![0xff; n]).map(|m| m.kind());
            let ranged = matches!(kind, 0x0200..=0x0203 | 0x0207);
            let expected = match (right(kind, n), ranged) {
                (false, _) => Err(Refusal::WrongLength),
                (true, true) => Err(Refusal::OutOfRange),
                (true, false) => Ok(kind),
            };
            same!(format!("{kind:#06x} of {n} bytes"), told, expected);
        }
    }
}

#[test]
fn nanoseconds() {
    for (ns, held) in [
        (-500001, false),
        (-500000, true),
        (500000, true),
        (500001, false),
    ] {
        let time = GpsTime {
            wn: 1900,
            tow: 1,
            ns,
            flags: 0,
        };
        let payload = [&[0; 6][..], &ns.to_le_bytes(), &[0]].concat();
        same!(format!("{ns} written"), time.frame(WRITER).is_ok(), held);
        same!(format!("{ns} read"), GpsTime::read(&payload).is_ok(), held);
        if !held {
            same!(
                format!("{ns}"),
                GpsTime::read(&payload),
                Err(Refusal::OutOfRange)
            );
            refuses("a range", 64, Refusal::OutOfRange, |out| {
                time.write(WRITER, out)
            });
        }
    }
}

#[test]
fn a_range_comes_before_room() {
    let time = GpsTime {
        ns: i32::MIN,
        ..GpsTime::default()
    };
    let heading = BaselineHeading {
        flags: 2,
        ..BaselineHeading::default()
    };
    for message in [Message::from(time), Message::from(heading)] {
        for room in [0, 7, 64] {
            refuses("a range", room, Refusal::OutOfRange, |out| {
                message.write(WRITER, out)
            });
        }
    }
}

#[test]
fn too_much_comes_before_room() {
    let obs = Obs {
        observations: vec![Observation::default(); 16],
        ..Obs::default()
    };
    let log = Log {
        level: 1,
        text: vec![b'x'; 255],
        padding: 0,
    };
    for room in [0, 7, 300] {
        refuses("16 observations", room, Refusal::TooMuch, |out| {
            obs.write(WRITER, out)
        });
        refuses("255 bytes of text", room, Refusal::TooMuch, |out| {
            log.write(WRITER, out)
        });
        refuses("256 bytes", room, Refusal::TooMuch, |out| {
            write_frame(out, 1, WRITER, &[0; 256])
        });
    }
    same!(
        "frame of 16",
        obs.frame(WRITER.named(1)),
        Err(Refusal::TooMuch)
    );
    same!(
        "frame of 255",
        Message::from(log).frame(WRITER.named(1)),
        Err(Refusal::TooMuch)
    );
}

/// After a zero in a text to read, any other byte at any place.
#[test]
fn a_letter_after_a_zero() {
    for zero in 1..254 {
        for letter in zero + 1..255 {
            let mut payload = [b'x'; 255];
            payload[zero..].fill(0);
            payload[letter] = letter as u8;
            let payload = &payload[..=letter];
            let what = format!("a zero at {zero}, a letter at {letter}");
            same!(what, Log::read(payload), Err(Refusal::OutOfRange));
            let told = answer(Log::KIND, payload);
            same!(what, told, Err(Refusal::OutOfRange));
        }
    }
    same!("at level 0", Log::read(b"\0\0x"), Err(Refusal::OutOfRange));
    let longer = [&[6, 0][..], &[b'x'; 254]].concat();
    same!("of 256", Log::read(&longer), Err(Refusal::WrongLength));
}

/// In front, in the middle, at the end; and before a text is too long.
#[test]
fn a_zero_in_a_text_to_write() {
    for (length, zero) in [
        (1, 0),
        (9, 0),
        (9, 4),
        (9, 8),
        (254, 253),
        (255, 254),
        (300, 299),
    ] {
        let mut text = vec![b'x'; length];
        text[zero] = 0;
        for padding in [0, 1, 254, 255, usize::MAX] {
            let log = Log {
                level: 0,
                text: text.clone(),
                padding,
            };
            for room in [0, 7, 400] {
                let what = format!("{length} bytes, a zero at {zero}, {padding} after them");
                refuses(&what, room, Refusal::OutOfRange, |out| {
                    log.write(WRITER, out)
                });
            }
            same!("frame", log.frame(WRITER), Err(Refusal::OutOfRange));
        }
    }
}

#[test]
fn text_and_padding_that_are_too_much() {
    for (length, padding) in [
        (0, 255),
        (1, 254),
        (127, 128),
        (254, 1),
        (255, 0),
        // 0 in too few bits, or in a sum
        (1, 1 << 8),
        (1, 1 << 16),
        (1, 1 << 32),
        (1, usize::MAX),
        (254, usize::MAX - 253),
        (300, usize::MAX - 299),
        (0, usize::MAX),
    ] {
        let log = Log {
            level: 0,
            text: vec![b'x'; length],
            padding,
        };
        for room in [0, 7, 400] {
            let what = format!("{length} bytes, {padding} zeros");
            refuses(&what, room, Refusal::TooMuch, |out| log.write(WRITER, out));
        }
        same!("frame", log.frame(WRITER), Err(Refusal::TooMuch));
    }
}

#[test]
fn one_observation() {
    let told = |kind, n: usize, index| Observation::read(kind, &vec![0; n], index).map(|_| ());
    same!(
        "another type",
        told(0x0048, 6, 9),
        Err(Refusal::UnknownType)
    );
    same!("length", told(0x0049, 6, 9), Err(Refusal::WrongLength));
    same!("none", told(0x0049, 7, 0), Err(Refusal::NoSuchObservation));
    same!("the last", told(0x0049, 247, 14), Ok(()));
    same!(
        "past it",
        told(0x0049, 247, 15),
        Err(Refusal::NoSuchObservation)
    );
    same!(
        "far past it",
        told(0x0049, 247, usize::MAX),
        Err(Refusal::NoSuchObservation)
    );
}

//! Reading and writing of every message.

use twin::frames::{closed, write, Writer};
use twin::gen::{broken_range, off_length, valid, Rng, TYPES};
use twin::messages::flags::*;
use twin::messages::*;

const OURS: Writer = Writer::new(1228);

/// Payload to record to frame gives the frame of that payload, bit for bit.
#[test]
fn round_trips() {
    let mut rng = Rng::new(1);
    for _ in 0..400 {
        for msg_type in TYPES {
            let payload = valid(&mut rng, msg_type);
            assert_eq!(answer(msg_type, &payload), 0);
            let message = Message::read(msg_type, &payload).unwrap();
            let writer = OURS.named(rng.word() as u16);
            let size = payload.len() + 8;

            let mut raw = vec![0; size];
            assert_eq!(write(msg_type, writer, &payload, &mut raw), Ok(size));
            let mut out = vec![0xA7; size + 3];
            assert_eq!(message.write(writer, &mut out), Ok(size));
            assert_eq!(out[..size], raw);
            assert_eq!(out[size..], [0xA7; 3]);
            let reading = closed(&out[..size]);
            assert_eq!(reading.frames.len(), 1);
            assert_eq!(
                Message::read(msg_type, reading.frames[0].payload),
                Ok(message.clone())
            );

            // One byte too few: 32, and nothing written.
            let mut small = vec![0xA7; size - 1];
            assert_eq!(message.write(OURS, &mut small), Err(32));
            assert!(small.iter().all(|&b| b == 0xA7));
        }
    }
}

#[test]
fn refused_payloads() {
    let mut rng = Rng::new(2);
    let mut ranged = 0;
    for _ in 0..400 {
        for msg_type in TYPES {
            if let Some(payload) = broken_range(&mut rng, msg_type) {
                ranged += 1;
                assert_eq!(answer(msg_type, &payload), 23);
            }
            let payload = off_length(&mut rng, msg_type);
            let no = answer(msg_type, &payload);
            assert_eq!(no, twin::fast::answer(msg_type, &payload));
            // One off in length is 22 even where a range is broken too.
            assert!(no != 21);
        }
    }
    assert_eq!(ranged, 400 * 7);
}

/// Which lengths each type takes, from the table of document 01 and from P2.
#[test]
fn every_length_of_every_type() {
    for msg_type in TYPES {
        for length in 0..=300 {
            let right = match msg_type {
                0x0100 => length == 11,
                0x0206 => length == 14,
                0x0200 => length == 32,
                0x0201 => length == 34,
                0x0202 | 0x0204 => length == 20,
                0x0203 | 0x0205 => length == 22,
                0x0207 => length == 10,
                0x0044 | 0x0048 => length == 24,
                0x0049 => length <= 247 && length % 16 == 7,
                0x0081 => length == 185,
                0x0082 | 0x0083 => length == 112,
                0x0090 => length == 70,
                0x0091 => length == 10,
                0x0092 => length == 14,
                0x0401 => (1..=255).contains(&length),
                0x00A2 => length == 2,
                0xFF00 | 0xFFFF => length == 4,
                _ => length == 0,
            };
            let payload = vec![0; length];
            let expected = if right { 0 } else { 22 };
            assert_eq!(
                answer(msg_type, &payload),
                expected,
                "{msg_type:#06x} {length}"
            );
            assert_eq!(twin::fast::answer(msg_type, &payload), expected);
        }
    }
}

#[test]
fn every_type_not_in_the_table_is_21() {
    for msg_type in 0..=u16::MAX {
        let known = TYPES.contains(&msg_type);
        assert_eq!(answer(msg_type, &[]) != 21, known);
        assert_eq!(twin::fast::answer(msg_type, &[]) != 21, known);
    }
}

/// All 256 flags in each message that has a fix mode, and in the velocities.
#[test]
fn fix_mode_ranges() {
    for (msg_type, length, highest) in [
        (0x0200u16, 32, 2),
        (0x0201, 34, 2),
        (0x0202, 20, 1),
        (0x0203, 22, 1),
        (0x0207, 10, 1),
        (0x0204, 20, 7),
        (0x0205, 22, 7),
    ] {
        for flags in 0..=255u8 {
            let mut payload = vec![0; length];
            payload[length - 1] = flags;
            let expected = if flags % 8 <= highest { 0 } else { 23 };
            assert_eq!(answer(msg_type, &payload), expected);
            assert_eq!(twin::fast::answer(msg_type, &payload), expected);
        }
    }
}

/// 23 comes before 32 when writing.
#[test]
fn writing_out_of_range() {
    let mut out = [0xA7; 40];
    let time = GpsTime {
        wn: 1,
        tow: 2,
        ns: 500_001,
        flags: 0,
    };
    assert_eq!(time.write(OURS, &mut out), Err(23));
    assert_eq!(time.write(OURS, &mut []), Err(23));
    let heading = BaselineHeading {
        tow: 0,
        heading: 0,
        n_sats: 0,
        flags: 2,
    };
    assert_eq!(heading.write(OURS, &mut []), Err(23));
    assert_eq!(
        BaselineHeading {
            flags: 1,
            ..heading
        }
        .write(OURS, &mut []),
        Err(32)
    );
    assert!(out.iter().all(|&b| b == 0xA7));
}

#[test]
fn doubles_keep_their_bits() {
    for bits in [
        0x8000_0000_0000_0000,
        0x7FF0_0000_0000_0001,
        0xFFF8_0000_0000_1234,
        0x7FF8_0000_0000_0000,
        f64::INFINITY.to_bits(),
    ] {
        let double = Double { bits };
        assert_eq!(Double::from_value(double.value()), double);
        let record = BasePosEcef {
            x: double,
            y: Double { bits: 1 },
            z: double,
        };
        let mut out = [0; 32];
        record.write(OURS, &mut out).unwrap();
        assert_eq!(out[6..14], bits.to_le_bytes());
        assert_eq!(BasePosEcef::read(&out[6..30]), Ok(record));
    }
}

#[test]
fn observations() {
    let header = ObsHeader {
        tow: 5,
        wn: 6,
        n_obs: 0x00,
    };
    let one = Observation {
        p: 0x0403_0201,
        l_i: -3,
        l_f: 128,
        cn0: 7,
        lock: 0x0908,
        sat: 0x0B0A,
        code: 12,
        reserved: 13,
    };
    let mut out = [0xA7; 300];
    assert_eq!(write_obs(&header, &[one; 16], OURS, &mut out), Err(31));
    assert_eq!(write_obs(&header, &[one; 16], OURS, &mut []), Err(31));
    assert_eq!(
        write_obs(&header, &[one; 15], OURS, &mut out[..254]),
        Err(32)
    );
    assert!(out.iter().all(|&b| b == 0xA7));
    assert_eq!(write_obs(&header, &[one; 2], OURS, &mut out), Ok(47));
    let payload = &out[6..45];
    assert_eq!(
        payload[7..23],
        [1, 2, 3, 4, 0xFD, 0xFF, 0xFF, 0xFF, 128, 7, 8, 9, 10, 11, 12, 13]
    );
    assert_eq!(read_obs_header(payload), Ok(header));
    assert_eq!(observation(payload, 0), Ok(one));
    assert_eq!(observation(payload, 1), Ok(one));
    assert_eq!(observation(payload, 2), Err(25));
    assert_eq!(observation(&payload[1..], 2), Err(22));
    assert_eq!(observation(payload, usize::MAX), Err(25));

    let mut reader = ObsReader::new(payload);
    assert_eq!(reader.step(), Ok(one));
    assert_eq!(reader.step(), Ok(one));
    assert_eq!(reader.step(), Err(25));
    assert_eq!(reader.step(), Err(25));
    assert_eq!(reader.index(), 2);
}

fn log(level: u8, text: &[u8], padding: usize) -> Log<'_> {
    Log {
        level,
        text,
        padding,
    }
}

/// What a LOG answers when it is written with much room; no refusal writes.
fn log_written(text: &[u8], padding: usize) -> Result<usize, u8> {
    let mut out = [0xA7; 300];
    let written = log(6, text, padding).write(OURS, &mut out);
    assert!(out[written.unwrap_or(0)..].iter().all(|&b| b == 0xA7));
    written
}

#[test]
fn log_read() {
    let full = [b'x'; 255];
    let mut zero_last = full;
    zero_last[254] = 0;
    for (payload, expected) in [
        (&b"\x06ab"[..], log(6, b"ab", 0)),
        (b"\x06ab\0", log(6, b"ab", 1)),
        (b"\x06ab\0\0\0\0\0", log(6, b"ab", 5)),
        // A level of 0 ends nothing.
        (b"\0", log(0, b"", 0)),
        (b"\0ab", log(0, b"ab", 0)),
        (b"\0ab\0", log(0, b"ab", 1)),
        // Only zeros, to the longest.
        (b"\0\0", log(0, b"", 1)),
        (&[0; 255], log(0, b"", 254)),
        (&full, log(b'x', &full[1..], 0)),
        (&zero_last, log(b'x', &full[2..], 1)),
    ] {
        assert_eq!(Log::read(payload), Ok(expected), "{payload:x?}");
        assert_eq!(twin::fast::answer(Log::TYPE, payload), 0);
        let mut row = [7; 4];
        assert_eq!(twin::fast::read_row(Log::TYPE, payload, &mut row), 0);
        assert_eq!(row[..3], Message::Log(expected).row());
        assert_eq!(row[3], 7);

        let mut out = [0; 263];
        let size = expected.write(OURS, &mut out).unwrap();
        assert_eq!(&out[6..size - 2], payload);
    }
}

#[test]
fn log_with_a_byte_after_a_zero() {
    let mut long = [b'x'; 256];
    long[254] = 0;
    for payload in [
        &b"\x06\0a"[..],
        b"\0\0a",
        b"\x06ab\0c",
        b"\x06ab\0c\0",
        b"\x06ab\0\0\0c",
        b"\x06\0\xFF\0\0",
        b"\x06\0\0\0\x80",
    ] {
        assert_eq!(Log::read(payload), Err(23), "{payload:x?}");
        assert_eq!(twin::fast::answer(Log::TYPE, payload), 23);
    }
    // 22 comes before 23.
    assert_eq!(Log::read(&long), Err(22));
    assert_eq!(twin::fast::answer(Log::TYPE, &long), 22);
    assert_eq!(Log::read(&[0; 256]), Err(22));
    assert_eq!(Log::read(&long[1..]), Err(23));
}

/// 23 comes before 31, and before 32.
#[test]
fn log_text_with_a_zero() {
    for text in [&b"\0"[..], b"\0ab", b"a\0b", b"ab\0", &[0; 254], &[0; 255]] {
        for padding in [0, 1, 254, usize::MAX] {
            assert_eq!(log_written(text, padding), Err(23), "{text:x?}");
        }
        assert_eq!(log(6, text, 0).write(OURS, &mut []), Err(23));
    }
    for at in [0, 150, 299] {
        let mut long = [b'x'; 300];
        assert_eq!(log_written(&long, 0), Err(31));
        long[at] = 0;
        assert_eq!(log_written(&long, 0), Err(23));
    }
}

#[test]
fn log_room() {
    let text = [b'x'; 255];
    for length in [0, 1, 100, 253, 254] {
        let left = 254 - length;
        let text = &text[..length];
        assert_eq!(log_written(text, left), Ok(263));
        for padding in [left + 1, left + 2, usize::MAX - length, usize::MAX] {
            assert_eq!(log_written(text, padding), Err(31), "{length} {padding}");
        }
        // 31 comes before 32.
        assert_eq!(log(6, text, left + 1).write(OURS, &mut []), Err(31));
        assert_eq!(log(6, text, left).write(OURS, &mut [0; 262]), Err(32));
    }
    assert_eq!(log_written(&text, 0), Err(31));
    assert_eq!(log_written(b"", 0), Ok(9));
    assert_eq!(log_written(b"ab", 3), Ok(14));
    assert_eq!(log(6, b"ab", 3).write(OURS, &mut [0; 13]), Err(32));
}

#[test]
fn log_level_names() {
    assert_eq!(log_level_name(7), "DEBUG");
    assert_eq!(log_level_name(8), "EMERG");
}

#[test]
fn carrier_phase_limits() {
    assert_eq!(phase_from_parts(i32::MIN, 0), PHASE_MIN);
    assert_eq!(phase_from_parts(i32::MAX, 255), PHASE_MAX);
    assert_eq!(phase_to_parts(PHASE_MIN), Ok((i32::MIN, 0)));
    assert_eq!(phase_to_parts(PHASE_MAX), Ok((i32::MAX, 255)));
    for outside in [PHASE_MIN - 1, PHASE_MAX + 1, i64::MIN, i64::MAX] {
        assert_eq!(phase_to_parts(outside), Err(33));
    }
    let mut rng = Rng::new(3);
    for _ in 0..10_000 {
        let (l_i, l_f) = (rng.word() as i32, rng.byte());
        assert_eq!(phase_to_parts(phase_from_parts(l_i, l_f)), Ok((l_i, l_f)));
    }
}

#[test]
fn flag_meanings() {
    assert_eq!(pos_ecef_fix_mode(1), Some(FixMode::Float));
    assert_eq!(pos_ecef_fix_mode(2), Some(FixMode::Fixed));
    assert_eq!(pos_llh_fix_mode(1), Some(FixMode::Fixed));
    assert_eq!(pos_llh_fix_mode(2), Some(FixMode::Float));
    assert_eq!(pos_llh_fix_mode(0xF8), Some(FixMode::SinglePoint));
    assert_eq!(pos_llh_fix_mode(3), None);
    assert_eq!(baseline_fix_mode(0), Some(FixMode::Float));
    assert_eq!(baseline_fix_mode(1), Some(FixMode::Fixed));
    assert_eq!(baseline_fix_mode(2), None);
    assert!(pos_ecef_raim_available(8) && !pos_ecef_raim_available(16));
    assert!(pos_ecef_raim_repair(16));
    assert!(pos_llh_raim_available(16) && !pos_llh_raim_available(8));
    assert!(pos_llh_raim_repair(32));
    assert_eq!(pos_llh_height_mode(8), HeightMode::AboveSeaLevel);
    assert_eq!(pos_llh_height_mode(16), HeightMode::AboveEllipsoid);
    assert!(baseline_raim_available(8) && baseline_raim_repair(16));
    assert!(heartbeat_system_error(1) && !heartbeat_system_error(!1));
    assert!(heartbeat_io_error(2) && heartbeat_nap_error(4));
    assert!(heartbeat_antenna_present(1 << 31) && !heartbeat_antenna_present(!(1 << 31)));
}

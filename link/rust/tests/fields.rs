//! Every message but the orbits both ways, field by field, with values of which
//! no two bytes are alike; the bytes are those of the published layouts.

#[macro_use]
mod common;

use common::{WRITER, frame, writes};
use yaqtumeer::*;

/// A message without a tail: its payload, its fields, the numbers in its row.
macro_rules! plain {
    ($name:ident = $kind:literal, $published:literal, $payload:expr, { $($field:ident: $value:expr => $number:expr,)* }) => {{
        let read = $name::read(&$payload).unwrap();
        $(same!(stringify!($name.$field), read.$field, $value);)*
        same!("FIELDS", $name::FIELDS, <[u64]>::len(&[$($number),*]));
        let written = $name { $($field: $value),* };
        message!(written, $name = $kind, $published, $payload, [$($number),*]);
        same!("read alike", read, written);
    }};
}

#[test]
fn gps_time() {
    let payload = [
        0xa1, 0xa2, 0xb1, 0xb2, 0xb3, 0xb4, 0xdf, 0xbc, 0xfa, 0xff, 0xc7,
    ];
    plain!(GpsTime = 0x0100, "MSG_GPS_TIME", payload, {
        wn: 0xa2a1 => 0xa2a1,
        tow: 0xb4b3b2b1 => 0xb4b3b2b1,
        ns: -344865 => 0xffff_ffff_fffa_bcdf,
        flags: 0xc7 => 0xc7,
    });
}

#[test]
fn dops() {
    let payload = [
        0xa1, 0xa2, 0xa3, 0xa4, 0xb1, 0xb2, 0xc1, 0xc2, 0xd1, 0xd2, 0xe1, 0xe2, 0xf1, 0xf2,
    ];
    plain!(Dops = 0x0206, "MSG_DOPS", payload, {
        tow: 0xa4a3a2a1 => 0xa4a3a2a1,
        gdop: 0xb2b1 => 0xb2b1,
        pdop: 0xc2c1 => 0xc2c1,
        tdop: 0xd2d1 => 0xd2d1,
        hdop: 0xe2e1 => 0xe2e1,
        vdop: 0xf2f1 => 0xf2f1,
    });
}

#[test]
fn pos_ecef() {
    let payload = [
        0xa1, 0xa2, 0xa3, 0xa4, // tow
        0xb1, 0xb2, 0xb3, 0xb4, 0xb5, 0xb6, 0xb7, 0xb8, // x
        0xc1, 0xc2, 0xc3, 0xc4, 0xc5, 0xc6, 0xc7, 0xc8, // y
        0xd1, 0xd2, 0xd3, 0xd4, 0xd5, 0xd6, 0xd7, 0xd8, // z
        0xe1, 0xe2, 0xf1, 0xfa,
    ];
    plain!(PosEcef = 0x0200, "MSG_POS_ECEF", payload, {
        tow: 0xa4a3a2a1 => 0xa4a3a2a1,
        x: f64::from_bits(0xb8b7b6b5b4b3b2b1) => 0xb8b7b6b5b4b3b2b1,
        y: f64::from_bits(0xc8c7c6c5c4c3c2c1) => 0xc8c7c6c5c4c3c2c1,
        z: f64::from_bits(0xd8d7d6d5d4d3d2d1) => 0xd8d7d6d5d4d3d2d1,
        accuracy: 0xe2e1 => 0xe2e1,
        n_sats: 0xf1 => 0xf1,
        flags: 0xfa => 0xfa,
    });
}

#[test]
fn pos_llh() {
    let payload = [
        0xa1, 0xa2, 0xa3, 0xa4, // tow
        0xb1, 0xb2, 0xb3, 0xb4, 0xb5, 0xb6, 0xb7, 0xb8, // lat
        0xc1, 0xc2, 0xc3, 0xc4, 0xc5, 0xc6, 0xc7, 0xc8, // lon
        0xd1, 0xd2, 0xd3, 0xd4, 0xd5, 0xd6, 0xd7, 0xd8, // height
        0xe1, 0xe2, 0xe3, 0xe4, 0xf3, 0xf1,
    ];
    plain!(PosLlh = 0x0201, "MSG_POS_LLH", payload, {
        tow: 0xa4a3a2a1 => 0xa4a3a2a1,
        lat: f64::from_bits(0xb8b7b6b5b4b3b2b1) => 0xb8b7b6b5b4b3b2b1,
        lon: f64::from_bits(0xc8c7c6c5c4c3c2c1) => 0xc8c7c6c5c4c3c2c1,
        height: f64::from_bits(0xd8d7d6d5d4d3d2d1) => 0xd8d7d6d5d4d3d2d1,
        h_accuracy: 0xe2e1 => 0xe2e1,
        v_accuracy: 0xe4e3 => 0xe4e3,
        n_sats: 0xf3 => 0xf3,
        flags: 0xf1 => 0xf1,
    });
}

/// Three coordinates of four bytes, the first and the last negative, and what
/// stands after them.
fn three(rest: &[u8]) -> Vec<u8> {
    let mut payload = vec![
        0xa1, 0xa2, 0xa3, 0xa4, // tow
        0xb1, 0xb2, 0xb3, 0xb4, // first, negative
        0x71, 0x72, 0x73, 0x74, // second, positive
        0xd1, 0xd2, 0xd3, 0xd4, // third, negative
    ];
    payload.extend(rest);
    payload
}

// 0xb4b3b2b1 and 0xd4d3d2d1 in two's complement
const FIRST: i32 = -1263291727;
const SECOND: i32 = 1953722993;
const THIRD: i32 = -724315439;

#[test]
fn baseline_ecef() {
    plain!(BaselineEcef = 0x0202, "MSG_BASELINE_ECEF", three(&[0xe1, 0xe2, 0xf3, 0xf9]), {
        tow: 0xa4a3a2a1 => 0xa4a3a2a1,
        x: FIRST => 0xffff_ffff_b4b3_b2b1,
        y: SECOND => 0x7473_7271,
        z: THIRD => 0xffff_ffff_d4d3_d2d1,
        accuracy: 0xe2e1 => 0xe2e1,
        n_sats: 0xf3 => 0xf3,
        flags: 0xf9 => 0xf9,
    });
}

#[test]
fn vel_ecef() {
    plain!(VelEcef = 0x0204, "MSG_VEL_ECEF", three(&[0xe1, 0xe2, 0xf3, 0xff]), {
        tow: 0xa4a3a2a1 => 0xa4a3a2a1,
        x: FIRST => 0xffff_ffff_b4b3_b2b1,
        y: SECOND => 0x7473_7271,
        z: THIRD => 0xffff_ffff_d4d3_d2d1,
        accuracy: 0xe2e1 => 0xe2e1,
        n_sats: 0xf3 => 0xf3,
        flags: 0xff => 0xff,
    });
}

#[test]
fn baseline_ned() {
    let payload = three(&[0xe1, 0xe2, 0xe3, 0xe4, 0xf3, 0xf9]);
    plain!(BaselineNed = 0x0203, "MSG_BASELINE_NED", payload, {
        tow: 0xa4a3a2a1 => 0xa4a3a2a1,
        n: FIRST => 0xffff_ffff_b4b3_b2b1,
        e: SECOND => 0x7473_7271,
        d: THIRD => 0xffff_ffff_d4d3_d2d1,
        h_accuracy: 0xe2e1 => 0xe2e1,
        v_accuracy: 0xe4e3 => 0xe4e3,
        n_sats: 0xf3 => 0xf3,
        flags: 0xf9 => 0xf9,
    });
}

#[test]
fn vel_ned() {
    let payload = three(&[0xe1, 0xe2, 0xe3, 0xe4, 0xf3, 0xff]);
    plain!(VelNed = 0x0205, "MSG_VEL_NED", payload, {
        tow: 0xa4a3a2a1 => 0xa4a3a2a1,
        n: FIRST => 0xffff_ffff_b4b3_b2b1,
        e: SECOND => 0x7473_7271,
        d: THIRD => 0xffff_ffff_d4d3_d2d1,
        h_accuracy: 0xe2e1 => 0xe2e1,
        v_accuracy: 0xe4e3 => 0xe4e3,
        n_sats: 0xf3 => 0xf3,
        flags: 0xff => 0xff,
    });
}

#[test]
fn baseline_heading() {
    let payload = [0xa1, 0xa2, 0xa3, 0xa4, 0xb1, 0xb2, 0xb3, 0xb4, 0xf3, 0xf9];
    plain!(BaselineHeading = 0x0207, "MSG_BASELINE_HEADING", payload, {
        tow: 0xa4a3a2a1 => 0xa4a3a2a1,
        heading: 0xb4b3b2b1 => 0xb4b3b2b1,
        n_sats: 0xf3 => 0xf3,
        flags: 0xf9 => 0xf9,
    });
}

const THREE_DOUBLES: [u8; 24] = [
    0xb1, 0xb2, 0xb3, 0xb4, 0xb5, 0xb6, 0xb7, 0xb8, // first
    0xc1, 0xc2, 0xc3, 0xc4, 0xc5, 0xc6, 0xc7, 0xc8, // second
    0xd1, 0xd2, 0xd3, 0xd4, 0xd5, 0xd6, 0xd7, 0xd8, // third
];

#[test]
fn base_pos_llh() {
    plain!(BasePosLlh = 0x0044, "MSG_BASE_POS_LLH", THREE_DOUBLES, {
        lat: f64::from_bits(0xb8b7b6b5b4b3b2b1) => 0xb8b7b6b5b4b3b2b1,
        lon: f64::from_bits(0xc8c7c6c5c4c3c2c1) => 0xc8c7c6c5c4c3c2c1,
        height: f64::from_bits(0xd8d7d6d5d4d3d2d1) => 0xd8d7d6d5d4d3d2d1,
    });
}

#[test]
fn base_pos_ecef() {
    plain!(BasePosEcef = 0x0048, "MSG_BASE_POS_ECEF", THREE_DOUBLES, {
        x: f64::from_bits(0xb8b7b6b5b4b3b2b1) => 0xb8b7b6b5b4b3b2b1,
        y: f64::from_bits(0xc8c7c6c5c4c3c2c1) => 0xc8c7c6c5c4c3c2c1,
        z: f64::from_bits(0xd8d7d6d5d4d3d2d1) => 0xd8d7d6d5d4d3d2d1,
    });
}

#[test]
fn settings() {
    plain!(SettingsSave = 0x00a1, "MSG_SETTINGS_SAVE", [], {});
    plain!(
        ReadByIndexDone = 0x00a6,
        "MSG_SETTINGS_READ_BY_INDEX_DONE",
        [],
        {}
    );
    plain!(ReadByIndexReq = 0x00a2, "MSG_SETTINGS_READ_BY_INDEX_REQ", [0xa1, 0xa2], {
        index: 0xa2a1 => 0xa2a1,
    });
}

#[test]
fn system() {
    let payload = [0xa1, 0xa2, 0xa3, 0xa4];
    plain!(Startup = 0xff00, "MSG_STARTUP", payload, { reserved: 0xa4a3a2a1 => 0xa4a3a2a1, });
    plain!(Heartbeat = 0xffff, "MSG_HEARTBEAT", payload, { flags: 0xa4a3a2a1 => 0xa4a3a2a1, });
}

#[test]
fn obs() {
    let head = [0xa1, 0xa2, 0xa3, 0xa4, 0xa5, 0xa6, 0xb3];
    let seen = [
        0xc1, 0xc2, 0xc3, 0xc4, 0xd1, 0xd2, 0xd3, 0xd4, 0xe1, 0xe2, 0xe3, 0xe4, 0xf1, 0xf2, 0xf3,
        0xf4,
    ];
    let also = [
        0x11, 0x12, 0x13, 0x14, 0x21, 0x22, 0x23, 0x24, 0x31, 0x32, 0x33, 0x34, 0x41, 0x42, 0x43,
        0x44,
    ];
    let payload = [&head[..], &seen, &also].concat();

    let read = Obs::read(&payload).unwrap();
    same!("tow", read.tow, 0xa4a3a2a1);
    same!("wn", read.wn, 0xa6a5);
    same!("n_obs", read.n_obs, 0xb3);
    same!("n", read.n(), 11);
    same!("counter", read.counter(), 3);
    same!("observations", read.observations.len(), 2);
    let first = read.observations[0];
    same!("p", first.p, 0xc4c3c2c1);
    same!("l_i", first.l_i, THIRD);
    same!("l_f", first.l_f, 0xe1);
    same!("cn0", first.cn0, 0xe2);
    same!("lock", first.lock, 0xe4e3);
    same!("sat", first.sat, 0xf2f1);
    same!("code", first.code, 0xf3);
    same!("reserved", first.reserved, 0xf4);
    same!(
        "carrier_phase",
        first.carrier_phase(),
        256 * i64::from(THIRD) + 0xe1
    );

    let rows: [[u64; Observation::FIELDS]; 2] = [
        [
            0xc4c3c2c1,
            0xffff_ffff_d4d3_d2d1,
            0xe1,
            0xe2,
            0xe4e3,
            0xf2f1,
            0xf3,
            0xf4,
        ],
        [
            0x14131211, 0x24232221, 0x31, 0x32, 0x3433, 0x4241, 0x43, 0x44,
        ],
    ];
    for (i, row) in rows.iter().enumerate() {
        let one = Observation::read(Obs::KIND, &payload, i);
        same!("Observation::read", one, Ok(read.observations[i]));
        same!("Observation::row", one.unwrap().row(), *row);
    }
    let past = Observation::read(Obs::KIND, &payload, 2);
    same!("past the last", past, Err(Refusal::NoSuchObservation));

    let second = Observation {
        p: 0x14131211,
        l_i: 0x24232221,
        l_f: 0x31,
        cn0: 0x32,
        lock: 0x3433,
        sat: 0x4241,
        code: 0x43,
        reserved: 0x44,
    };
    let written = Obs {
        tow: 0xa4a3a2a1,
        wn: 0xa6a5,
        n_obs: 0xb3,
        observations: vec![first, second],
    };
    same!("read alike", read, written);
    let numbers = [&[0xa4a3a2a1, 0xa6a5, 0xb3, 2][..], &rows[0], &rows[1]].concat();
    let numbers: [u64; 20] = numbers.try_into().unwrap();
    message!(written, Obs = 0x0049, "MSG_OBS", payload, numbers);
}

#[test]
fn obs_of_any_number() {
    for k in 0..=15 {
        let payload: Vec<u8> = (0..16 * k + 7).map(|i| i as u8).collect();
        let read = Obs::read(&payload).unwrap();
        same!("observations", read.observations.len(), k);
        same!(
            "frame",
            read.frame(WRITER.named(k as u16)),
            Ok(frame(Obs::KIND, k as u16, &payload))
        );
    }
}

#[test]
fn log() {
    let payload = [0xa1, 0x01, 0xff, b'x', 0x80, 0x00, 0x00];
    let read = Log::read(&payload).unwrap();
    same!("level", read.level, 0xa1);
    same!("text", read.text, [0x01, 0xff, b'x', 0x80]);
    same!("padding", read.padding, 2);
    let written = Log {
        level: 0xa1,
        text: vec![0x01, 0xff, b'x', 0x80],
        padding: 2,
    };
    same!("read alike", read, written);
    message!(
        written,
        Log = 0x0401,
        "MSG_LOG",
        payload,
        [0xa1, 4, 2, 0x01, 0xff, u64::from(b'x'), 0x80]
    );
}

/// A text ends before its first zero, and all of it comes back.
#[test]
fn log_text_and_its_padding() {
    let longest: Vec<u8> = (0..255).collect();
    let last_is_zero = [&longest[..254], &[0]].concat();
    let many = [&b"\x06text"[..], &[0; 250]].concat();
    for (payload, text, padding) in [
        (&b"\x06"[..], &b""[..], 0),
        (b"\x06text", b"text", 0),
        (b"\x06text\0", b"text", 1),
        (&many, b"text", 250),
        (b"\x06\0", b"", 1),
        (&[6, 0, 0, 0], b"", 3),
        // a level of 0 is a level
        (b"\0", b"", 0),
        (b"\0text", b"text", 0),
        (b"\0text\0", b"text", 1),
        (&[0; 255], b"", 254),
        (&longest, &longest[1..], 0),
        (&last_is_zero, &longest[1..254], 1),
    ] {
        let (level, text) = (payload[0], text.to_vec());
        let log = Log {
            level,
            text,
            padding,
        };
        same!(format!("{payload:?}"), Log::read(payload), Ok(log.clone()));
        let whole = frame(Log::KIND, 0, payload);
        writes("LOG", &whole, |out| log.write(WRITER.named(0), out));
    }
}

#[test]
fn logs_of_every_length_and_padding() {
    for length in 0..255 {
        for padding in 0..255 - length {
            let log = Log {
                level: padding as u8,
                text: vec![b'x'; length],
                padding,
            };
            let payload = [&[log.level][..], &log.text, &vec![0; padding]].concat();
            let what = format!("{length} bytes, {padding} zeros");
            let frame = log.frame(WRITER).unwrap();
            same!(what, frame[6..frame.len() - 2], payload);
            same!(what, Log::read(&payload), Ok(log));
        }
    }
}

#[test]
fn no_other_type_is_known() {
    for kind in 0..=u16::MAX {
        let known = Message::KINDS.contains(&kind);
        let told = Message::read(kind, &[0; 300]).map(|m| m.kind());
        let expected = if known {
            Refusal::WrongLength
        } else {
            Refusal::UnknownType
        };
        same!(format!("{kind:#06x}"), told, Err(expected));
        same!(
            format!("{kind:#06x}"),
            answer(kind, &[0; 300]),
            Err(expected)
        );
    }
}

#[test]
fn ends_of_formats() {
    for n in [i32::MIN, -1, 0, 1, i32::MAX] {
        let way = VelNed {
            n,
            e: !n,
            d: n / 2,
            ..VelNed::default()
        };
        let frame = way.frame(WRITER).unwrap();
        same!("north", frame[10..14], n.to_le_bytes());
        same!("east", frame[14..18], (!n).to_le_bytes());
        same!("read back", VelNed::read(&frame[6..28]), Ok(way));
    }
    for index in [0, 1, 255, 256, u16::MAX] {
        let frame = ReadByIndexReq { index }.frame(WRITER).unwrap();
        same!("index", frame[6..8], index.to_le_bytes());
    }
}

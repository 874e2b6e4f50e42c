//! Who sends what a recorder writes, and two recorders on one line.

#[macro_use]
mod common;

use common::{WRITER, frame, sent_by, writes};
use yaqtumeer::*;

/// Recorders' own numbers, each with no sender given and with each of some.
fn cases() -> impl Iterator<Item = (u16, Option<u16>)> {
    let given = [None, Some(0), Some(0x42), Some(7), Some(65535)];
    let owns = [0, 0x42, 1228, 65535].into_iter();
    owns.flat_map(move |own| given.map(|sender| (own, sender)))
}

fn writer(own: u16, given: Option<u16>) -> Writer {
    let recorder = Writer::new(own);
    given.map_or(recorder, |sender| recorder.named(sender))
}

#[test]
fn senders_of_messages() {
    for (kind, payload) in [
        (ReadByIndexReq::KIND, &[7, 1][..]),
        (SettingsSave::KIND, &[]),
        (Heartbeat::KIND, &[0xa1, 0xa2, 0xa3, 0xa4]),
        (PosLlh::KIND, &[0xa1; 34]),
        (Log::KIND, b"\x06text"),
        (Obs::KIND, &[0xa1; 7 + 2 * 16]),
    ] {
        let message = Message::read(kind, payload).unwrap();
        for (own, given) in cases() {
            let what = format!("{} of {own}, given {given:?}", message.name());
            let whole = frame(kind, sent_by(kind, own, given), payload);
            let writer = writer(own, given);
            writes(&what, &whole, |out| message.write(writer, out));
            same!(what, message.frame(writer), Ok(whole));
        }
    }
}

/// The raw frame writer goes by the type that it is given.
#[test]
fn senders_of_raw_frames() {
    for kind in [0x00a0, 0x00a1, 0x00a2, 0x00a4, 0x00a8, 0x0800, 0xffff] {
        for (own, given) in cases() {
            let what = format!("type {kind:#06x} of {own}, given {given:?}");
            let whole = frame(kind, sent_by(kind, own, given), b"any");
            let writer = writer(own, given);
            writes(&what, &whole, |out| write_frame(out, kind, writer, b"any"));
        }
    }
}

#[test]
fn senders_of_every_type() {
    for kind in 0..=u16::MAX {
        let mut out = [0; 8];
        let told = write_frame(&mut out, kind, Writer::new(1228), b"");
        same!("its length", told, Ok(8));
        let whole = frame(kind, sent_by(kind, 1228, None), b"");
        same!(format!("type {kind:#06x}"), out[..], whole[..]);
    }
}

#[test]
fn a_writer_is_a_value() {
    let other = WRITER.named(7);
    same!("named alike", other, WRITER.named(7));
    same!("named otherwise", other == WRITER.named(8), false);
    same!("named anew", other.named(8), WRITER.named(8));
    same!("none named", other == WRITER, false);
    same!("of another number", Writer::new(7) == WRITER, false);
}

/// What a recorder writes, in order; its packets have so many observations.
fn told(observations: usize) -> Vec<Message> {
    let packet = |tow, n_obs| Obs {
        tow,
        wn: 1900,
        n_obs,
        observations: vec![Observation::default(); observations],
    };
    vec![
        Heartbeat { flags: 0 }.into(),
        PosLlh::default().into(),
        Log::default().into(),
        packet(1000, 0x20).into(),
        packet(1000, 0x21).into(),
        packet(2000, 0x20).into(),
        packet(2000, 0x21).into(),
    ]
}

/// They write by turns, and neither names a sender.
#[test]
fn two_recorders_on_one_line() {
    let (mut line, mut written) = (Vec::new(), Vec::new());
    for (first, second) in told(1).into_iter().zip(told(2)) {
        for (own, message) in [(1228, first), (1229, second)] {
            line.extend(message.frame(Writer::new(own)).unwrap());
            written.push((own, message));
        }
    }
    let heard = Frames::closed(&line).map(|frame| (frame.sender, frame.message().unwrap()));
    same!("who wrote what", heard.collect::<Vec<_>>(), written);

    let mut collator = Collator::growing();
    let fed = Frames::closed(&line).map(|frame| collator.feed(&frame));
    let epochs: Vec<Epoch> = fed.filter_map(|told| told.ok().flatten()).collect();
    let epoch = |sender, tow, observations| Epoch {
        sender,
        wn: 1900,
        tow,
        n: 2,
        observations,
    };
    let expected = [
        epoch(1228, 1000, 2),
        epoch(1229, 1000, 4),
        epoch(1228, 2000, 2),
        epoch(1229, 2000, 4),
    ];
    same!("epochs", epochs, expected);
}

//! Writes a small capture to standard output: writing > FILE
//!
//! Status 1 where it cannot be written.

use std::error::Error;
use std::io::{self, Write};

use yaqtumeer::{
    GpsTime, Log, Obs, Observation, PhaseParts, PosLlh, ReadByIndexReq, Writer, write_frame,
};

/// This recorder, by its own number.
const RECORDER: Writer = Writer::new(1228);
/// An ordinary sender, whose positions are passed on.
const ROVER: u16 = 0;

fn capture() -> Result<Vec<u8>, Box<dyn Error>> {
    let (wn, tow) = (1900, 416300400);
    let time = GpsTime {
        wn,
        tow,
        ns: -250000,
        flags: 0,
    };
    let place = PosLlh {
        tow,
        lat: 37.7749,
        lon: -122.4194,
        height: 21.5,
        h_accuracy: 15,
        v_accuracy: 25,
        n_sats: 9,
        flags: 1, // fixed
    };
    let phase = PhaseParts::of(-640)?;
    let seen = |sat| Observation {
        p: 1080000000,
        l_i: phase.l_i,
        l_f: phase.l_f,
        cn0: 160,
        lock: 900,
        sat,
        ..Observation::default()
    };
    // the only packet of its epoch
    let packet = Obs {
        tow,
        wn,
        n_obs: 0x10,
        observations: vec![seen(3), seen(22)],
    };
    let line = Log {
        level: 6,
        text: b"recording".to_vec(),
        padding: 0,
    };

    let mut capture = Vec::new();
    capture.extend(time.frame(RECORDER)?);
    capture.extend(place.frame(RECORDER.named(ROVER))?);
    capture.extend(packet.frame(RECORDER)?);
    capture.extend(line.frame(RECORDER)?);
    // goes out as 0x42, which devices answer
    capture.extend(ReadByIndexReq { index: 7 }.frame(RECORDER)?);
    // a type that has no struct here
    let mut out = [0; 11];
    let size = write_frame(&mut out, 0x0800, RECORDER, b"any")?;
    capture.extend(&out[..size]);
    Ok(capture)
}

fn main() -> Result<(), Box<dyn Error>> {
    let mut out = io::stdout();
    out.write_all(&capture()?)?;
    Ok(out.flush()?)
}

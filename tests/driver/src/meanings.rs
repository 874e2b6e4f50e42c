//! What flags say, and carrier phase.

use std::io::{self, Read};

use yaqtumeer::{
    BaselineEcef, BaselineHeading, BaselineNed, Fix, Heartbeat, Observation, PhaseParts, PosEcef,
    PosLlh,
};

use crate::talk::{Reply, Request};

/// What is told where a message has no such method.
const NONE: u8 = 21;

fn fix_number(fix: Fix) -> u8 {
    match fix {
        Fix::SinglePoint => 0,
        Fix::Float => 1,
        Fix::Fixed => 2,
        Fix::Reserved => 3,
    }
}

macro_rules! told {
    ($name:ident, $flags:expr, $sea:expr) => {{
        let mut message = $name::default();
        message.flags = $flags;
        let sea: fn(&$name) -> u8 = $sea;
        [
            fix_number(message.fix()),
            message.raim_available().into(),
            message.raim_repaired().into(),
            sea(&message),
        ]
    }};
}

/// All flags of a type that has a fix mode.
pub fn flags(request: &mut Request<impl Read>, reply: &mut Reply) -> io::Result<()> {
    let kind = request.u16()?;
    for flags in 0..=255 {
        reply.put(&match kind {
            0x0200 => told!(PosEcef, flags, |_| NONE),
            0x0201 => told!(PosLlh, flags, |m| m.above_sea().into()),
            0x0202 => told!(BaselineEcef, flags, |_| NONE),
            0x0203 => told!(BaselineNed, flags, |_| NONE),
            0x0207 => told!(BaselineHeading, flags, |_| NONE),
            _ => [NONE; 4],
        });
    }
    Ok(())
}

pub fn heartbeat(request: &mut Request<impl Read>, reply: &mut Reply) -> io::Result<()> {
    let flags = request.u32()?;
    let beat = Heartbeat { flags };
    reply.put(&[
        beat.system_error().into(),
        beat.io_error().into(),
        beat.nap_error().into(),
        beat.external_antenna().into(),
    ]);
    Ok(())
}

/// By an observation; by its two parts alone it must be the same.
pub fn phase(request: &mut Request<impl Read>, reply: &mut Reply) -> io::Result<()> {
    let (l_i, l_f) = (request.u32()? as i32, request.u8()?);
    let seen = Observation {
        l_i,
        l_f,
        ..Observation::default()
    };
    let phase = seen.carrier_phase();
    assert_eq!(phase, PhaseParts { l_i, l_f }.phase());
    reply.put(&phase.to_le_bytes());
    Ok(())
}

pub fn parts(request: &mut Request<impl Read>, reply: &mut Reply) -> io::Result<()> {
    let parts = PhaseParts::of(request.u64()? as i64);
    reply.answer(&parts, true);
    match parts {
        Ok(parts) => {
            reply.hash(&parts.l_i.to_le_bytes());
            reply.hash(&[parts.l_f]);
        }
        Err(_) => {
            reply.hash_untouched(4);
            reply.hash_untouched(1);
        }
    }
    Ok(())
}

//! CRC, answers, frames, counts and listings.

use std::io::{self, Read};

use yaqtumeer::{Frames, crc as crc_of, frame_crc as frame_crc_of};

use crate::talk::{Reply, Request, number};

pub fn crc(request: &mut Request<impl Read>, reply: &mut Reply) -> io::Result<()> {
    let start = request.u16()?;
    reply.put(&crc_of(start, &request.bytes()?).to_le_bytes());
    reply.put(&[1]);
    Ok(())
}

pub fn frame_crc(request: &mut Request<impl Read>, reply: &mut Reply) -> io::Result<()> {
    let (header, payload) = (request.bytes()?, request.bytes()?);
    reply.put(&frame_crc_of(&header, &payload).to_le_bytes());
    reply.put(&[1]);
    Ok(())
}

pub fn answer(request: &mut Request<impl Read>, reply: &mut Reply) -> io::Result<()> {
    let kind = request.u16()?;
    reply.answer(&yaqtumeer::answer(kind, &request.bytes()?), true);
    Ok(())
}

/// One step of the iterator, as sbp_next has it.
pub fn next(request: &mut Request<impl Read>, reply: &mut Reply) -> io::Result<()> {
    let at = request.u64()? as usize;
    let opened = request.u8()? != 0;
    request.count()?;
    let capture = request.bytes()?;
    let reading = if opened {
        Frames::open(&capture)
    } else {
        Frames::closed(&capture)
    };
    let mut frames = reading.starting_at(at);
    let found = frames.next();
    let counts = frames.counts();
    let (answer, place) = match (found, frames.needs()) {
        (Some(frame), _) => (0, frame.at),
        (None, None) => (1, frames.position()),
        (None, Some(_)) => (2, frames.position()),
    };
    let needed = frames.needs().unwrap_or(0);
    let mut row = Vec::new();
    for value in [place, frames.position(), needed] {
        row.extend((value as u64).to_le_bytes());
    }
    for value in [counts.junk, counts.bad, counts.short] {
        row.extend(value.to_le_bytes());
    }
    let (kind, sender, payload) = found.map_or((0, 0, &[][..]), |f| (f.kind, f.sender, f.payload));
    row.extend(kind.to_le_bytes());
    row.extend(sender.to_le_bytes());
    row.push(payload.len() as u8);
    // what the row has not: the payload itself, the CRC, the bytes in frames
    let agreed = match found {
        None => counts.framed == 0,
        Some(f) => {
            let whole = &capture[f.at..][..f.size()];
            whole[6..].starts_with(f.payload)
                && whole.ends_with(&f.crc.to_le_bytes())
                && counts.framed == f.size() as u64
        }
    };
    reply.put(&[answer, u8::from(agreed)]);
    reply.hash(&row);
    Ok(())
}

pub fn totals(request: &mut Request<impl Read>, reply: &mut Reply) -> io::Result<()> {
    request.count()?;
    let capture = request.bytes()?;
    let counts = yaqtumeer::totals(&capture);
    // the same, from frame to frame
    let mut frames = Frames::closed(&capture);
    frames.by_ref().for_each(drop);
    reply.put(&[0, u8::from(frames.counts() == counts)]);
    reply.hash_numbers(&[counts.framed, counts.junk, counts.bad, counts.short]);
    Ok(())
}

pub fn list(request: &mut Request<impl Read>, reply: &mut Reply) -> io::Result<()> {
    let room = request.count()?;
    let listed = yaqtumeer::list(&request.bytes()?);
    reply.put(&[number(&listed), 1]);
    match listed {
        Ok(text) => {
            reply.hash(text.as_bytes());
            reply.hash_numbers(&[text.len() as u64]);
        }
        Err(_) => {
            reply.hash_untouched(room);
            reply.hash_untouched(8);
        }
    }
    Ok(())
}

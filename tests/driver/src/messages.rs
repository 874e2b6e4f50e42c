//! Messages read into their structs and written from them.

use std::io::{self, Read};

use yaqtumeer::{LONGEST_FRAME, Log, Message, Observation, Refusal};

use crate::fields::{numbers_of, obs_of, of_row, row_of};
use crate::talk::{Out, Reply, Request};

pub fn read(request: &mut Request<impl Read>, reply: &mut Reply) -> io::Result<()> {
    let kind = request.u16()?;
    request.count()?;
    let read = Message::read(kind, &request.bytes()?);
    let row = read.as_ref().map_or(Vec::new(), row_of);
    let agreed = read
        .as_ref()
        .map_or(true, |m| m.kind() == kind && m.row() == row);
    reply.answer(&read, agreed);
    reply.hash_numbers(&row);
    Ok(())
}

pub fn observation(request: &mut Request<impl Read>, reply: &mut Reply) -> io::Result<()> {
    let (kind, index) = (request.u16()?, request.u64()? as usize);
    request.count()?;
    let read = Observation::read(kind, &request.bytes()?, index);
    let row = read.as_ref().map_or(Vec::new(), numbers_of);
    reply.answer(&read, true);
    reply.hash_numbers(&row);
    Ok(())
}

/// What a writer writes into that room; the frame in memory of its own is the same.
fn written(
    reply: &mut Reply,
    room: usize,
    write: impl FnOnce(&mut [u8]) -> Result<usize, Refusal>,
    frame: impl FnOnce() -> Result<Vec<u8>, Refusal>,
) {
    let mut out = Out::of(room);
    let size = write(out.lent());
    let same = size.is_err() || size.map(|n| out.lent()[..n].to_vec()) == frame();
    reply.answer(&size, out.guarded() && same);
    reply.hash(out.lent());
    match size {
        Ok(size) => reply.hash_numbers(&[size as u64]),
        Err(_) => reply.hash_untouched(8),
    }
}

fn unasked() -> io::Error {
    io::Error::other("a message that Rust cannot be asked to write")
}

pub fn write(request: &mut Request<impl Read>, reply: &mut Reply) -> io::Result<()> {
    let kind = request.u16()?;
    let (writer, room) = (request.writer()?, request.count()?);
    let message = of_row(kind, &request.numbers()?).ok_or_else(unasked)?;
    written(
        reply,
        room,
        |out| message.write(writer, out),
        || message.frame(writer),
    );
    Ok(())
}

pub fn write_obs(request: &mut Request<impl Read>, reply: &mut Reply) -> io::Result<()> {
    request.u16()?;
    let (writer, room) = (request.writer()?, request.count()?);
    let (head, rows) = (request.numbers()?, request.numbers()?);
    let obs = obs_of(&head, &rows).ok_or_else(unasked)?;
    written(
        reply,
        room,
        |out| obs.write(writer, out),
        || obs.frame(writer),
    );
    Ok(())
}

pub fn write_log(request: &mut Request<impl Read>, reply: &mut Reply) -> io::Result<()> {
    let writer = request.writer()?;
    let level = request.u8()?;
    let padding = request.u64()? as usize;
    let room = request.count()?;
    let text = request.bytes()?;
    let log = Log {
        level,
        text,
        padding,
    };
    written(
        reply,
        room,
        |out| log.write(writer, out),
        || log.frame(writer),
    );
    Ok(())
}

pub fn write_frame(request: &mut Request<impl Read>, reply: &mut Reply) -> io::Result<()> {
    let kind = request.u16()?;
    let (writer, room) = (request.writer()?, request.count()?);
    let payload = request.bytes()?;
    let again = || {
        let mut out = vec![0; LONGEST_FRAME];
        let size = yaqtumeer::write_frame(&mut out, kind, writer, &payload)?;
        out.truncate(size);
        Ok(out)
    };
    written(
        reply,
        room,
        |out| yaqtumeer::write_frame(out, kind, writer, &payload),
        again,
    );
    Ok(())
}

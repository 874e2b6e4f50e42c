//! Asks the wrapper what standard input tells, and tells what came out:
//! twins/rust/src/bin/twincalls asks and compares, by the requests and replies
//! of tests/driver.c. Where the wrapper shows no state, its hash is 0. The
//! byte after the answer is 1 also where two ways to the same thing agree.

mod captures;
mod collators;
mod fields;
mod indexes;
mod meanings;
mod messages;
mod talk;

use std::io::{self, Write};

use collators::Held;
use indexes::Kept;
use talk::{Reply, Request};

fn main() -> io::Result<()> {
    let mut request = Request::of(io::stdin().lock());
    let mut out = io::stdout().lock();
    let (mut held, mut kept) = (Held::default(), Kept::default());
    while let Some(letter) = request.letter()? {
        let mut reply = Reply::default();
        match letter {
            b'c' => captures::crc(&mut request, &mut reply)?,
            b'C' => captures::frame_crc(&mut request, &mut reply)?,
            b'a' => captures::answer(&mut request, &mut reply)?,
            b'n' => captures::next(&mut request, &mut reply)?,
            b't' => captures::totals(&mut request, &mut reply)?,
            b'l' => captures::list(&mut request, &mut reply)?,
            b'r' => messages::read(&mut request, &mut reply)?,
            b'o' => messages::observation(&mut request, &mut reply)?,
            b'w' => messages::write(&mut request, &mut reply)?,
            b'W' => messages::write_obs(&mut request, &mut reply)?,
            b'L' => messages::write_log(&mut request, &mut reply)?,
            b'F' => messages::write_frame(&mut request, &mut reply)?,
            b'x' => meanings::flags(&mut request, &mut reply)?,
            b'h' => meanings::heartbeat(&mut request, &mut reply)?,
            b'p' => meanings::phase(&mut request, &mut reply)?,
            b'P' => meanings::parts(&mut request, &mut reply)?,
            b'm' => held.roster(&mut request, &mut reply)?,
            b'g' => held.growing(&mut request, &mut reply)?,
            b'f' => held.feed(&mut request, &mut reply)?,
            b'I' => kept.make(&mut request, &mut reply)?,
            b'E' => kept.extend(&mut request, &mut reply)?,
            b'q' => kept.first(&mut request, &mut reply)?,
            b'k' => kept.count(&mut request, &mut reply)?,
            _ => return Err(io::Error::other("no such request")),
        }
        out.write_all(&reply.bytes)?;
        out.flush()?;
    }
    Ok(())
}

//! One way of reading for all commands: a capture of any length through a window that is refilled.

use crate::args::Source;
use crate::output::Output;
use std::fs::File;
use std::io::{self, ErrorKind, Read};
use std::os::fd::AsFd;
use yaqtumeer::{Counts, Frame, Frames, LONGEST_FRAME};

/// The longest frame has room in it, so that there is always room for more of a frame that waits for its rest.
pub const WINDOW: usize = 256 << 10;
const _: () = assert!(WINDOW >= LONGEST_FRAME);

/// What a command does with a capture.
pub trait Reader {
    /// A frame, and where it stands in the whole capture.
    fn frame(&mut self, at: u64, frame: &Frame, text: &mut Vec<u8>);

    /// The capture's end; without its totals where the reading of it failed before.
    fn end(&mut self, totals: Option<&Totals>, text: &mut Vec<u8>);
}

/// A whole capture's length, and the bytes of it in frames and passed over.
#[derive(Clone, Copy, Debug, Default, PartialEq, Eq)]
pub struct Totals {
    pub length: u64,
    pub counts: Counts,
}

/// Why nothing more is read.
#[derive(Debug)]
pub enum Stop {
    Read(io::Error),
    Write(io::Error),
}

/// The part of a capture that is at hand.
pub struct Window {
    bytes: Vec<u8>,
    filled: usize,
    /// Where it begins in the capture.
    pub offset: u64,
    totals: Totals,
}

impl Window {
    pub fn new(size: usize) -> Window {
        Window {
            bytes: vec![0; size],
            filled: 0,
            offset: 0,
            totals: Totals::default(),
        }
    }

    /// More of the capture; none at its end.
    pub fn refill(&mut self, source: &mut impl Read) -> io::Result<usize> {
        loop {
            match source.read(&mut self.bytes[self.filled..]) {
                Err(again) if again.kind() == ErrorKind::Interrupted => continue,
                Err(failed) => return Err(failed),
                Ok(n) => {
                    self.filled += n;
                    self.totals.length += n as u64;
                    return Ok(n);
                }
            }
        }
    }

    pub fn at_hand(&self) -> &[u8] {
        &self.bytes[..self.filled]
    }

    /// So many bytes are done with and make room.
    pub fn forget(&mut self, read: usize) {
        self.bytes.copy_within(read..self.filled, 0);
        self.filled -= read;
        self.offset += read as u64;
    }

    /// Empty, to be filled from another place of the capture.
    pub fn move_to(&mut self, offset: u64) {
        self.filled = 0;
        self.offset = offset;
    }
}

/// Hands on the frames that are at hand, and keeps what the next ones may begin with.
fn pass(
    window: &mut Window,
    closed: bool,
    reader: &mut impl Reader,
    out: &mut Output,
) -> io::Result<()> {
    let at_hand = window.at_hand();
    let mut frames = if closed {
        Frames::closed(at_hand)
    } else {
        Frames::open(at_hand)
    };
    for frame in frames.by_ref() {
        reader.frame(window.offset + frame.at as u64, &frame, &mut out.text);
        out.settle()?;
    }
    let passed = frames.position();
    window.totals.counts += frames.counts();
    window.forget(passed);
    Ok(())
}

/// A whole capture. What was found is written before a read that may wait.
fn walk(
    source: &mut impl Read,
    size: usize,
    reader: &mut impl Reader,
    out: &mut Output,
) -> Result<Totals, Stop> {
    let mut window = Window::new(size);
    loop {
        out.flush().map_err(Stop::Write)?;
        out.progress.draw(window.totals.length);
        let more = window.refill(source).map_err(Stop::Read)?;
        pass(&mut window, more == 0, reader, out).map_err(Stop::Write)?;
        if more == 0 {
            return Ok(window.totals);
        }
    }
}

/// A capture read to its end or as far as it goes, and all of it written.
fn read(mut source: impl Read, reader: &mut impl Reader, out: &mut Output) -> Result<(), Stop> {
    let walked = walk(&mut source, WINDOW, reader, out);
    out.progress.wipe();
    if !matches!(walked, Err(Stop::Write(_))) {
        reader.end(walked.as_ref().ok(), &mut out.text);
        out.flush().map_err(Stop::Write)?;
    }
    walked.map(|_| ())
}

pub fn opened(source: &Source) -> io::Result<File> {
    match source {
        Source::Standard => io::stdin().as_fd().try_clone_to_owned().map(File::from),
        Source::File(path) => File::open(path),
    }
}

pub fn read_source(
    source: &Source,
    reader: &mut impl Reader,
    out: &mut Output,
) -> Result<(), Stop> {
    let file = opened(source).map_err(Stop::Read)?;
    // A pipe's or a device's length is 0.
    out.progress
        .begin(file.metadata().map_or(0, |about| about.len()));
    read(file, reader, out)
}

#[cfg(test)]
mod tests {
    use super::*;
    use yaqtumeer::{Writer, totals, write_frame};

    /// Frames of all lengths with noise between them, and a cut one at the end.
    fn capture() -> Vec<u8> {
        let mut capture = Vec::new();
        for n in 0..=255 {
            let mut frame = [0; LONGEST_FRAME];
            let payload = vec![0x55; n.into()];
            let size = write_frame(&mut frame, 0x0800 + n, Writer::new(n), &payload);
            capture.extend_from_slice(&frame[..size.expect("there is room")]);
            capture.extend_from_slice(&[0x55, 9, 0x55][..usize::from(n % 4)]);
        }
        capture.extend_from_slice(&[0x55, 1, 2, 3, 4, 255, 7]);
        capture
    }

    /// Gives some bytes at a time, and is interrupted before each.
    struct Pieces<'a> {
        left: &'a [u8],
        size: usize,
        interrupted: bool,
    }

    impl Read for Pieces<'_> {
        fn read(&mut self, to: &mut [u8]) -> io::Result<usize> {
            self.interrupted = !self.interrupted;
            if self.interrupted {
                return Err(ErrorKind::Interrupted.into());
            }
            let n = self.size.min(to.len());
            (&mut self.left).take(n as u64).read(to)
        }
    }

    #[derive(Default)]
    struct Offsets(Vec<(u64, u16, usize)>);

    impl Reader for Offsets {
        fn frame(&mut self, at: u64, frame: &Frame, _text: &mut Vec<u8>) {
            self.0.push((at, frame.kind, frame.payload.len()));
        }

        fn end(&mut self, _totals: Option<&Totals>, _text: &mut Vec<u8>) {}
    }

    #[test]
    fn any_window_and_any_pieces_give_the_same() {
        let capture = capture();
        let whole = Frames::closed(&capture).map(|f| (f.at as u64, f.kind, f.payload.len()));
        let whole: Vec<_> = whole.collect();
        for window in [LONGEST_FRAME, LONGEST_FRAME + 1, 1000, 4096] {
            for size in [1, 2, 7, 255, 263, 5000] {
                let mut source = Pieces {
                    left: &capture,
                    size,
                    interrupted: false,
                };
                let mut found = Offsets::default();
                let told = walk(&mut source, window, &mut found, &mut Output::new());
                assert_eq!(found.0, whole);
                let told = told.expect("it is read to its end");
                assert_eq!(told.length, capture.len() as u64);
                assert_eq!(told.counts, totals(&capture));
            }
        }
    }
}

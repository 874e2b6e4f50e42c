//! Prints the epochs of a capture of any length, and its totals: epochs FILE
//!
//! A line `E` for each epoch (sender, week, time of week, packets,
//! observations), and at the end `T` (length, bytes in frames, junk, bad,
//! short). Status 1 for trouble with the file, 2 for wrong use.

use std::fs::File;
use std::io::{self, BufWriter, Read, Write};
use std::path::PathBuf;
use std::process::ExitCode;

use yaqtumeer::{Collator, Counts, Frames};

const PART: u64 = 65536;

fn main() -> ExitCode {
    let mut arguments = std::env::args_os().skip(1).map(PathBuf::from);
    let (Some(path), None) = (arguments.next(), arguments.next()) else {
        eprintln!("usage: epochs FILE");
        return ExitCode::from(2);
    };
    let out = BufWriter::new(io::stdout().lock());
    match File::open(&path).and_then(|file| epochs(file, out)) {
        Ok(()) => ExitCode::SUCCESS,
        Err(trouble) => {
            eprintln!("epochs: {}: {trouble}", path.display());
            ExitCode::from(1)
        }
    }
}

fn epochs(mut file: impl Read, mut out: impl Write) -> io::Result<()> {
    let mut collator = Collator::growing();
    let mut counts = Counts::default();
    let mut unread = Vec::new();
    loop {
        let came = file.by_ref().take(PART).read_to_end(&mut unread)?;
        // more may come until nothing came
        let mut frames = match came {
            0 => Frames::closed(&unread),
            _ => Frames::open(&unread),
        };
        for frame in &mut frames {
            if let Ok(Some(e)) = collator.feed(&frame) {
                writeln!(
                    out,
                    "E {} {} {} {} {}",
                    e.sender, e.wn, e.tow, e.n, e.observations
                )?;
            }
        }
        counts += frames.counts();
        let position = frames.position();
        unread.drain(..position);
        if came == 0 {
            break;
        }
    }
    let length = counts.total();
    writeln!(
        out,
        "T {length} {} {} {} {}",
        counts.framed, counts.junk, counts.bad, counts.short
    )?;
    out.flush()
}

//! `twingen SEED COUNT` writes captures, each after its length as a
//! little-endian u32. `twingen --stats SEED COUNT` prints what they reach, and
//! fails where something that is wanted is not reached.

use std::io::{BufWriter, Result, Write};
use std::process::ExitCode;
use twin::gen;

fn write_captures(seed: u64, count: u64) -> Result<()> {
    let mut out = BufWriter::new(std::io::stdout().lock());
    for each in 0..count {
        let bytes = gen::capture(seed.wrapping_add(each));
        out.write_all(&(bytes.len() as u32).to_le_bytes())?;
        out.write_all(&bytes)?;
    }
    out.flush()
}

fn main() -> ExitCode {
    let mut args: Vec<String> = std::env::args().skip(1).collect();
    let only_stats = args.first().is_some_and(|first| first == "--stats");
    if only_stats {
        args.remove(0);
    }
    let numbers: Vec<u64> = args.iter().filter_map(|arg| arg.parse().ok()).collect();
    let ([seed, count], true) = (numbers.as_slice(), numbers.len() == args.len()) else {
        eprintln!("usage: twingen [--stats] SEED COUNT");
        return ExitCode::from(2);
    };
    if only_stats {
        let stats = gen::stats::stats(*seed, *count);
        print!("{}", stats.text());
        let missing = stats.missing();
        for name in &missing {
            println!("not reached: {name}");
        }
        return ExitCode::from(u8::from(!missing.is_empty()));
    }
    match write_captures(*seed, *count) {
        Ok(()) => ExitCode::SUCCESS,
        Err(_) => ExitCode::FAILURE,
    }
}

//! Reads standard input to its end and prints its listing.

use std::io::{Read, Result, Write};

fn main() -> Result<()> {
    let mut capture = Vec::new();
    std::io::stdin().read_to_end(&mut capture)?;
    let text = twin::listing::listing(&capture);
    std::io::stdout().write_all(text.as_bytes())
}

//! Standard output, written in large pieces.

use crate::progress::Progress;
use std::io::{self, IsTerminal, Write};

const PIECE: usize = 64 << 10;

pub struct Output {
    pub text: Vec<u8>,
    pub progress: Progress,
    on_terminal: bool,
}

impl Output {
    pub fn new() -> Output {
        Output {
            text: Vec::with_capacity(2 * PIECE),
            progress: Progress::new(),
            on_terminal: io::stdout().is_terminal(),
        }
    }

    /// Writes what has come together, once it is a piece.
    pub fn settle(&mut self) -> io::Result<()> {
        if self.text.len() < PIECE {
            return Ok(());
        }
        self.flush()
    }

    pub fn flush(&mut self) -> io::Result<()> {
        if self.text.is_empty() {
            return Ok(());
        }
        if self.on_terminal {
            self.progress.wipe();
        }
        let mut standard = io::stdout().lock();
        let written = standard
            .write_all(&self.text)
            .and_then(|()| standard.flush());
        // also after a failure: nothing is tried twice
        self.text.clear();
        written
    }
}

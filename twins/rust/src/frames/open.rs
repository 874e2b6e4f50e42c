//! Open reading: more bytes may come, so a short stops it.

use super::{step, Counts, Frame, Step};

#[derive(Clone, Debug, PartialEq, Eq)]
pub struct Open<'a> {
    pub frames: Vec<Frame<'a>>,
    pub counts: Counts,
    /// Where it stopped: the short's position, or the end.
    pub at: usize,
    /// How many bytes from `at` are needed; none when finished.
    pub needed: Option<usize>,
}

/// Reads from `start` on, so that a caller can go on where it stopped.
pub fn open(capture: &[u8], start: usize) -> Open<'_> {
    let mut frames = Vec::new();
    let mut counts = Counts::default();
    let mut at = start;
    let needed = loop {
        match step(capture, at) {
            Step::Finished => break None,
            Step::Short { needed } => break Some(needed),
            Step::Junk => {
                counts.junk += 1;
                at += 1;
            }
            Step::Bad => {
                counts.bad += 1;
                at += 1;
            }
            Step::Frame(frame) => {
                counts.frame_bytes += frame.size();
                at += frame.size();
                frames.push(frame);
            }
        }
    };
    Open {
        frames,
        counts,
        at,
        needed,
    }
}

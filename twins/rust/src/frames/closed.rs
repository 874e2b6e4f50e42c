//! Closed reading: the capture is complete, so a short is passed over.

use super::{step, Counts, Frame, Step};

#[derive(Clone, Debug, PartialEq, Eq)]
pub struct Closed<'a> {
    pub frames: Vec<Frame<'a>>,
    pub counts: Counts,
}

pub fn closed(capture: &[u8]) -> Closed<'_> {
    let mut frames = Vec::new();
    let mut counts = Counts::default();
    let mut p = 0;
    loop {
        match step(capture, p) {
            Step::Finished => return Closed { frames, counts },
            Step::Junk => {
                counts.junk += 1;
                p += 1;
            }
            Step::Short { .. } => {
                counts.short += 1;
                p += 1;
            }
            Step::Bad => {
                counts.bad += 1;
                p += 1;
            }
            Step::Frame(frame) => {
                counts.frame_bytes += frame.size();
                p += frame.size();
                frames.push(frame);
            }
        }
    }
}

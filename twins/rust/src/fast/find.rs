//! Finding frames in a closed capture.

#[derive(Clone, Copy, Debug, Default, PartialEq, Eq)]
pub struct Counts {
    pub frames: usize,
    pub frame_bytes: usize,
    pub junk: usize,
    pub bad: usize,
    pub short: usize,
}

pub(super) struct Found<'a> {
    pub offset: usize,
    pub msg_type: u16,
    pub sender: u16,
    pub payload: &'a [u8],
}

/// A closed reading in progress, by either form of the CRC.
pub(super) struct Finder<'a, F> {
    crc: F,
    capture: &'a [u8],
    p: usize,
    pub counts: Counts,
}

impl<'a, F: Fn(u16, &[u8]) -> u16> Finder<'a, F> {
    pub fn new(crc: F, capture: &'a [u8]) -> Finder<'a, F> {
        Finder {
            crc,
            capture,
            p: 0,
            counts: Counts::default(),
        }
    }

    /// The next frame, or none at the end.
    #[inline]
    pub fn next(&mut self) -> Option<Found<'a>> {
        loop {
            let rest = self.capture.get(self.p..)?;
            let junk = junk_run(rest);
            self.counts.junk += junk;
            self.p += junk;
            let rest = &rest[junk..];
            // Here rest begins with 0x55, or is empty.
            let Some(&[_, t0, t1, s0, s1, n]) = rest.first_chunk::<6>() else {
                self.tail(rest);
                return None;
            };
            let size = usize::from(n) + 8;
            if let Some(frame) = rest.get(..size) {
                let (body, stated) = frame.split_at(size - 2);
                if (self.crc)(0, &body[1..]) == u16::from_le_bytes([stated[0], stated[1]]) {
                    let offset = self.p;
                    self.p += size;
                    self.counts.frames += 1;
                    self.counts.frame_bytes += size;
                    return Some(Found {
                        offset,
                        msg_type: u16::from_le_bytes([t0, t1]),
                        sender: u16::from_le_bytes([s0, s1]),
                        payload: &body[6..],
                    });
                }
                self.counts.bad += 1;
            } else {
                self.counts.short += 1;
            }
            self.p += 1;
        }
    }

    /// The last bytes, fewer than 6: each 0x55 is short, the rest junk.
    fn tail(&mut self, rest: &[u8]) {
        for &byte in rest {
            if byte == 0x55 {
                self.counts.short += 1;
            } else {
                self.counts.junk += 1;
            }
        }
        self.p = self.capture.len();
    }
}

/// How many bytes come before the first 0x55 (all, if there is none). Eight
/// are looked at together: a byte of 0x55 becomes 0, and 0 is the one byte
/// that borrows in the subtraction below.
#[inline]
pub(super) fn junk_run(bytes: &[u8]) -> usize {
    const ONES: u64 = 0x0101_0101_0101_0101;
    // Between frames the run is empty; that case goes first.
    if bytes.first() == Some(&0x55) {
        return 0;
    }
    let mut at = 0;
    while let Some(block) = bytes.get(at..).and_then(|b| b.first_chunk::<8>()) {
        let word = u64::from_le_bytes(*block) ^ (ONES * 0x55);
        let zeros = word.wrapping_sub(ONES) & !word & (ONES << 7);
        if zeros != 0 {
            // The lowest mark is exact; only higher ones can be false.
            return at + zeros.trailing_zeros() as usize / 8;
        }
        at += 8;
    }
    let rest = &bytes[at..];
    at + rest.iter().position(|&b| b == 0x55).unwrap_or(rest.len())
}

/// Counts of a closed reading; `crc` is `crc_table` or `crc_sliced`.
pub fn closed(crc: impl Fn(u16, &[u8]) -> u16, capture: &[u8]) -> Counts {
    let mut finder = Finder::new(crc, capture);
    while finder.next().is_some() {}
    finder.counts
}

//! Requests taken apart, replies put together, and buffers to write to.

use std::io::{self, Read};

use yaqtumeer::{Refusal, Writer};

/// What a lent buffer holds before a call, and what stands around it.
const FILL: u8 = 0xEE;
const GUARD: [u8; 64] = [0xA5; 64];

pub struct Request<R> {
    from: R,
}

impl<R: Read> Request<R> {
    pub fn of(from: R) -> Request<R> {
        Request { from }
    }

    /// None at the end.
    pub fn letter(&mut self) -> io::Result<Option<u8>> {
        let mut letter = [0];
        let count = self.from.read(&mut letter)?;
        Ok((count > 0).then_some(letter[0]))
    }

    pub fn array<const N: usize>(&mut self) -> io::Result<[u8; N]> {
        let mut bytes = [0; N];
        self.from.read_exact(&mut bytes)?;
        Ok(bytes)
    }

    pub fn u8(&mut self) -> io::Result<u8> {
        Ok(self.array::<1>()?[0])
    }

    pub fn u16(&mut self) -> io::Result<u16> {
        Ok(u16::from_le_bytes(self.array()?))
    }

    pub fn u32(&mut self) -> io::Result<u32> {
        Ok(u32::from_le_bytes(self.array()?))
    }

    pub fn u64(&mut self) -> io::Result<u64> {
        Ok(u64::from_le_bytes(self.array()?))
    }

    pub fn count(&mut self) -> io::Result<usize> {
        Ok(self.u32()? as usize)
    }

    pub fn bytes(&mut self) -> io::Result<Vec<u8>> {
        let mut bytes = vec![0; self.count()?];
        self.from.read_exact(&mut bytes)?;
        Ok(bytes)
    }

    pub fn numbers(&mut self) -> io::Result<Vec<u64>> {
        (0..self.count()?).map(|_| self.u64()).collect()
    }

    /// The recorder's own number and the sender; above 65535 none is given.
    pub fn writer(&mut self) -> io::Result<Writer> {
        let recorder = Writer::new(self.u16()?);
        let given = u16::try_from(self.u32()?);
        Ok(given.map_or(recorder, |sender| recorder.named(sender)))
    }
}

#[derive(Default)]
pub struct Reply {
    pub bytes: Vec<u8>,
}

impl Reply {
    pub fn put(&mut self, bytes: &[u8]) {
        self.bytes.extend(bytes);
    }

    /// The answer, and whether all else is as it should be.
    pub fn answer<T>(&mut self, read: &Result<T, Refusal>, agreed: bool) {
        self.put(&[number(read), u8::from(agreed)]);
    }

    pub fn hash(&mut self, bytes: &[u8]) {
        let start = 0xcbf2_9ce4_8422_2325_u64;
        let hash = bytes.iter().fold(start, |h, &b| {
            (h ^ u64::from(b)).wrapping_mul(0x0100_0000_01b3)
        });
        self.put(&hash.to_le_bytes());
    }

    pub fn hash_numbers(&mut self, numbers: &[u64]) {
        let bytes: Vec<u8> = numbers.iter().flat_map(|n| n.to_le_bytes()).collect();
        self.hash(&bytes);
    }

    /// What a buffer of that room holds where nothing is written.
    pub fn hash_untouched(&mut self, room: usize) {
        self.hash(&vec![FILL; room]);
    }
}

pub fn number<T>(read: &Result<T, Refusal>) -> u8 {
    read.as_ref().map_or_else(|refusal| refusal.number(), |_| 0)
}

/// A buffer of that room to write to, with guard bytes around it.
pub struct Out {
    all: Vec<u8>,
}

impl Out {
    pub fn of(room: usize) -> Out {
        Out {
            all: [&GUARD[..], &vec![FILL; room], &GUARD].concat(),
        }
    }

    pub fn lent(&mut self) -> &mut [u8] {
        let end = self.all.len() - GUARD.len();
        &mut self.all[GUARD.len()..end]
    }

    pub fn guarded(&self) -> bool {
        self.all.starts_with(&GUARD) && self.all.ends_with(&GUARD)
    }
}

//! An index, extended and asked.

use std::io::{self, Read};

use yaqtumeer::{Entry, Index};

use crate::talk::{Reply, Request, number};

/// An entry in C, whose last bytes are nobody's.
const ENTRY: usize = 16;

/// The types that are counted, in the order of the counts in C's bytes.
const COUNTED: [u16; 24] = [
    0x0049, 0x0100, 0x0206, 0x0200, 0x0201, 0x0202, 0x0204, 0x0203, 0x0205, 0x0207, 0x0044, 0x0048,
    0x0081, 0x0082, 0x0083, 0x0090, 0x0091, 0x0092, 0x00A1, 0x00A6, 0x00A2, 0xFF00, 0xFFFF, 0x0401,
];

/// The index of the request before. What C is sent of an index and its list is
/// passed over here.
#[derive(Default)]
pub struct Kept {
    index: Index,
}

fn pass_index(request: &mut Request<impl Read>) -> io::Result<()> {
    request.bytes().map(drop)
}

fn pass_list(request: &mut Request<impl Read>) -> io::Result<()> {
    for _ in 0..request.count()? {
        request.array::<ENTRY>()?;
    }
    Ok(())
}

/// Its numbers as they stand in C's bytes.
fn put_numbers(reply: &mut Reply, index: &Index) {
    let counts = COUNTED.iter().map(|&kind| index.count(kind).unwrap_or(0));
    let numbers = [index.reached(), index.iter().len() as u64];
    reply.hash_numbers(&numbers.into_iter().chain(counts).collect::<Vec<_>>());
}

fn put_entries(reply: &mut Reply, index: &Index) {
    let mut bytes = Vec::new();
    for entry in index {
        bytes.extend(entry.offset.to_le_bytes());
        bytes.extend(entry.kind.to_le_bytes());
        bytes.extend(entry.sender.to_le_bytes());
        bytes.push(entry.length);
        bytes.resize(bytes.len().next_multiple_of(ENTRY), 0);
    }
    reply.hash(&bytes);
}

impl Kept {
    pub fn make(&mut self, request: &mut Request<impl Read>, reply: &mut Reply) -> io::Result<()> {
        request.count()?;
        self.index = Index::new();
        reply.put(&[0, 1]);
        put_numbers(reply, &self.index);
        Ok(())
    }

    /// A copy that is extended without the bytes that were read is the same.
    pub fn extend(
        &mut self,
        request: &mut Request<impl Read>,
        reply: &mut Reply,
    ) -> io::Result<()> {
        pass_index(request)?;
        pass_list(request)?;
        request.count()?;
        let capture = request.bytes()?;
        let mut copy = self.index.clone();
        let before = copy.reached();
        let extended = self.index.extend(&capture);
        let rest = capture.get(before as usize..);
        let agreed = rest
            .is_none_or(|rest| copy.extend_after(before, rest) == extended && copy == self.index);
        reply.answer(&extended, agreed);
        put_numbers(reply, &self.index);
        put_entries(reply, &self.index);
        Ok(())
    }

    pub fn first(&mut self, request: &mut Request<impl Read>, reply: &mut Reply) -> io::Result<()> {
        pass_index(request)?;
        pass_list(request)?;
        let (kind, sender) = (request.u16()?, request.u16()?);
        let found = self.index.first(kind, sender, request.u64()?);
        match found.and_then(|entry| self.place_of(&entry)) {
            Some(place) => {
                reply.put(&[0, 1]);
                reply.hash_numbers(&[place as u64]);
            }
            None => {
                reply.put(&[1, 1]);
                reply.hash_untouched(8);
            }
        }
        Ok(())
    }

    /// No two entries are alike.
    fn place_of(&self, entry: &Entry) -> Option<usize> {
        self.index.iter().position(|held| held == entry)
    }

    pub fn count(&mut self, request: &mut Request<impl Read>, reply: &mut Reply) -> io::Result<()> {
        pass_index(request)?;
        let counted = self.index.count(request.u16()?);
        reply.put(&[number(&counted), 1]);
        match counted {
            Ok(count) => reply.hash_numbers(&[count]),
            Err(_) => reply.hash_untouched(8),
        }
        Ok(())
    }
}

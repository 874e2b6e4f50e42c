//! An index beside a capture, written for speed.

use super::crc::crc_table;
use super::find::junk_run;

/// As C has it.
#[repr(C)]
#[derive(Clone, Copy, Debug, Default, PartialEq, Eq)]
pub struct Entry {
    pub offset: u64,
    pub msg_type: u16,
    pub sender: u16,
    pub length: u8,
}

#[repr(C)]
#[derive(Clone, Copy, Debug, Default, PartialEq, Eq)]
pub struct Index {
    pub reached: u64,
    pub held: u64,
    pub counts: [u64; 24],
}

/// No frame is shorter.
const LEAST: usize = 8;

impl Index {
    /// 0, 52 or 51. A list with room for every frame that may come is filled
    /// in one pass; a shorter one is measured first.
    pub fn extend(&mut self, capture: &[u8], list: &mut [Entry]) -> u8 {
        let Some(more) = (capture.len() as u64).checked_sub(self.reached) else {
            return 52;
        };
        let Some(room) = (list.len() as u64).checked_sub(self.held) else {
            return 51;
        };
        let start = self.reached as usize;
        if room < more / LEAST as u64 && room < measured(capture, start) {
            return 51;
        }
        self.fill(capture, &mut list[self.held as usize..]);
        0
    }

    /// The list has room.
    fn fill(&mut self, capture: &[u8], list: &mut [Entry]) {
        let (counts, room) = (&mut self.counts, list.len());
        let mut places = list.iter_mut();
        let reached = each(capture, self.reached as usize, |entry| {
            if let Some(place) = places.next() {
                *place = entry;
            }
            if let Some(count) = count_of(entry.msg_type) {
                counts[count] += 1;
            }
        });
        self.held += (room - places.len()) as u64;
        self.reached = reached as u64;
    }

    /// None also where the list is too short.
    pub fn first(&self, list: &[Entry], msg_type: u16, sender: u16, offset: u64) -> Option<usize> {
        let held = list.get(..self.held as usize)?;
        held.iter()
            .position(|e| e.msg_type == msg_type && e.sender == sender && e.offset >= offset)
    }
}

fn measured(capture: &[u8], start: usize) -> u64 {
    let mut frames = 0;
    each(capture, start, |_| frames += 1);
    frames
}

/// Takes each frame of open reading from `at` on, and gives where it stops.
#[inline]
fn each(capture: &[u8], mut at: usize, mut take: impl FnMut(Entry)) -> usize {
    while let Some(rest) = capture.get(at..) {
        let junk = junk_run(rest);
        at += junk;
        let rest = &rest[junk..];
        // Here rest begins with 0x55, or is empty.
        let Some(&[_, t0, t1, s0, s1, length]) = rest.first_chunk::<6>() else {
            break;
        };
        let size = usize::from(length) + 8;
        let Some(frame) = rest.get(..size) else {
            break;
        };
        let (body, stated) = frame.split_at(size - 2);
        if crc_table(0, &body[1..]) != u16::from_le_bytes([stated[0], stated[1]]) {
            at += 1;
            continue;
        }
        take(Entry {
            offset: at as u64,
            msg_type: u16::from_le_bytes([t0, t1]),
            sender: u16::from_le_bytes([s0, s1]),
            length,
        });
        at += size;
    }
    at
}

/// Where a type's count stands.
#[inline]
fn count_of(msg_type: u16) -> Option<usize> {
    Some(match msg_type {
        0x0049 => 0,
        0x0100 => 1,
        0x0206 => 2,
        0x0200 => 3,
        0x0201 => 4,
        0x0202 => 5,
        0x0204 => 6,
        0x0203 => 7,
        0x0205 => 8,
        0x0207 => 9,
        0x0044 => 10,
        0x0048 => 11,
        0x0081 => 12,
        0x0082 => 13,
        0x0083 => 14,
        0x0090 => 15,
        0x0091 => 16,
        0x0092 => 17,
        0x00A1 => 18,
        0x00A6 => 19,
        0x00A2 => 20,
        0xFF00 => 21,
        0xFFFF => 22,
        0x0401 => 23,
        _ => return None,
    })
}

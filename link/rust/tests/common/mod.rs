//! What the tests share: comparisons that say what differs, frames put together
//! byte by byte without the library, lent buffers between guard bytes.
#![allow(dead_code, unused_macros)] // each test takes what it needs

use yaqtumeer::{Refusal, Writer};

/// Fails with a line that begins with `differs: `.
macro_rules! same {
    ($what:expr, $seen:expr, $expected:expr) => {{
        let (seen, expected) = (&$seen, &$expected);
        if seen != expected {
            panic!("differs: {}: {seen:?}, expected {expected:?}", $what);
        }
    }};
}

/// What holds of a message, its payload, its row and itself as any message.
macro_rules! message {
    ($message:expr, $name:ident = $kind:literal, $published:literal, $payload:expr, $row:expr) => {{
        use $crate::common::{OWN, SENDER, WRITER, frame, sent_by, writes};
        let (message, payload) = ($message, &$payload[..]);
        let row: Vec<u64> = $row.to_vec();
        same!("KIND", $name::KIND, $kind);
        same!("NAME", $name::NAME, $published);
        same!(
            "read",
            $name::read(payload).map(|m| m.row().to_vec()),
            Ok(row.clone())
        );
        same!("row", message.row().to_vec(), row);
        let named = WRITER.named(SENDER);
        let written = frame($kind, SENDER, payload);
        writes($published, &written, |out| message.write(named, out));
        same!("frame", message.frame(named), Ok(written.clone()));
        let unnamed = frame($kind, sent_by($kind, OWN, None), payload);
        writes($published, &unnamed, |out| message.write(WRITER, out));
        same!("frame", message.frame(WRITER), Ok(unnamed.clone()));

        let any = Message::from(message);
        same!("variant", matches!(any, Message::$name(_)), true);
        same!(
            "Message::read",
            Message::read($kind, payload).map(|m| m.row()),
            Ok(row.clone())
        );
        same!("Message::kind", any.kind(), $kind);
        same!("Message::name", any.name(), $published);
        same!("Message::row", any.row(), row);
        writes($published, &written, |out| any.write(named, out));
        same!("Message::frame", any.frame(named), Ok(written));
        writes($published, &unnamed, |out| any.write(WRITER, out));
        same!("Message::frame", any.frame(WRITER), Ok(unnamed));
        same!("answer", answer($kind, payload), Ok(()));
        same!("KINDS", Message::KINDS.contains(&$kind), true);
    }};
}

pub const SENDER: u16 = 0x9876;

/// A recorder, by its own number.
pub const OWN: u16 = 0x5432;
pub const WRITER: Writer = Writer::new(OWN);

/// Who sends a frame of that type that a recorder writes: the sender that it is
/// given, or itself, but 0x42 for what devices obey from there alone.
pub fn sent_by(kind: u16, own: u16, given: Option<u16>) -> u16 {
    match (given, kind) {
        (Some(sender), _) => sender,
        (None, 0x00a1 | 0x00a2) => 0x42,
        (None, _) => own,
    }
}

/// Bits of doubles that are easily lost.
pub const PATTERNS: [u64; 14] = [
    0x0000_0000_0000_0000, // zero
    0x8000_0000_0000_0000, // minus zero
    0x0000_0000_0000_0001, // the least subnormal
    0x800f_ffff_ffff_ffff,
    0x7fef_ffff_ffff_ffff, // the greatest
    0x7ff0_0000_0000_0000, // infinity
    0xfff0_0000_0000_0000,
    0x7ff0_0000_0000_0001, // NaNs that signal
    0xfff7_ffff_ffff_ffff,
    0x7ff4_0123_4567_89ab,
    0x7ff8_0000_0000_0000, // and that don't
    0xfff8_0000_0000_0000,
    0x7ff8_0123_4567_89ab,
    0xffff_ffff_ffff_ffff,
];

pub const GUARD: u8 = 0xee;
const GUARDS: usize = 64;

/// The CRC bit by bit.
pub fn crc(start: u16, bytes: &[u8]) -> u16 {
    bytes.iter().fold(start, |crc, &byte| {
        (0..8).fold(crc ^ u16::from(byte) << 8, |crc, _| {
            if crc & 0x8000 == 0 {
                crc << 1
            } else {
                crc << 1 ^ 0x1021
            }
        })
    })
}

pub fn frame(kind: u16, sender: u16, payload: &[u8]) -> Vec<u8> {
    let mut out = vec![0x55];
    out.extend(kind.to_le_bytes());
    out.extend(sender.to_le_bytes());
    out.push(payload.len() as u8);
    out.extend(payload);
    out.extend(crc(0, &out[1..]).to_le_bytes());
    out
}

/// What a writer answers with so much room, and the room after it; no byte
/// around the room has changed.
pub fn lent(
    room: usize,
    write: impl FnOnce(&mut [u8]) -> Result<usize, Refusal>,
) -> (Result<usize, Refusal>, Vec<u8>) {
    let mut block = vec![GUARD; GUARDS + room + GUARDS];
    let told = write(&mut block[GUARDS..GUARDS + room]);
    let (before, rest) = block.split_at(GUARDS);
    let (lent, after) = rest.split_at(room);
    for guards in [before, after] {
        same!("guard bytes", guards, &[GUARD; GUARDS][..]);
    }
    (told, lent.to_vec())
}

/// A writer writes exactly this frame, with any room that it fits in, and with
/// a byte too few nothing.
pub fn writes(what: &str, expected: &[u8], write: impl Fn(&mut [u8]) -> Result<usize, Refusal>) {
    let size = expected.len();
    for more in [0, 1, 40] {
        let (told, seen) = lent(size + more, &write);
        same!(what, told, Ok(size));
        same!(what, &seen[..size], expected);
        same!(
            format!("{what}, after the frame"),
            &seen[size..],
            &vec![GUARD; more][..]
        );
    }
    for room in [0, size - 1] {
        refuses(what, room, Refusal::NoRoom, &write);
    }
}

/// A writer refuses, and has written nothing.
pub fn refuses(
    what: &str,
    room: usize,
    refusal: Refusal,
    write: impl FnOnce(&mut [u8]) -> Result<usize, Refusal>,
) {
    let (told, seen) = lent(room, write);
    same!(what, told, Err(refusal));
    same!(format!("{what}, refused"), seen, vec![GUARD; room]);
}

pub fn sample() -> Vec<u8> {
    let path = concat!(
        env!("CARGO_MANIFEST_DIR"),
        "/../../tests/sample/base-and-rover.sbp"
    );
    std::fs::read(path).expect("the sample is in the repository")
}

/// Numbers that look random and are the same each time.
pub struct Noise(pub u64);

impl Noise {
    pub fn number(&mut self) -> u64 {
        self.0 ^= self.0 << 13;
        self.0 ^= self.0 >> 7;
        self.0 ^= self.0 << 17;
        self.0.wrapping_mul(0x2545_f491_4f6c_dd1d)
    }

    pub fn below(&mut self, end: u64) -> u64 {
        (self.number() >> 16) % end
    }

    /// Bytes, of which every eighth is 0x55: there are frames begun everywhere.
    pub fn bytes(&mut self, n: usize) -> Vec<u8> {
        (0..n)
            .map(|_| match self.below(8) {
                0 => 0x55,
                _ => self.number() as u8,
            })
            .collect()
    }
}

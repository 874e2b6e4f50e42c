//! The listing in one pass, into a reused vector.

use super::answer::answer;
use super::collate::Collator;
use super::decimal::Line;
use super::find::Finder;

/// Replaces `out` by the listing of `capture`; `crc` is `crc_table` or
/// `crc_sliced`.
pub fn listing_into(crc: impl Fn(u16, &[u8]) -> u16, capture: &[u8], out: &mut Vec<u8>) {
    out.clear();
    if capture.len() > 65536 {
        out.extend_from_slice(b"R 11\n");
        return;
    }
    let mut finder = Finder::new(crc, capture);
    let mut collator = Collator::growing();
    while let Some(frame) = finder.next() {
        // Offsets and lengths are at most 65536 here.
        Line::new(b'F')
            .number(frame.offset as u32)
            .number(frame.msg_type.into())
            .number(frame.sender.into())
            .number(frame.payload.len() as u32)
            .number(answer(frame.msg_type, frame.payload).into())
            .end(out);
        if frame.msg_type == 0x0049 {
            if let Some(epoch) = collator.feed_listing(frame.sender, frame.payload) {
                Line::new(b'E')
                    .number(epoch.sender.into())
                    .number(epoch.wn.into())
                    .number(epoch.tow)
                    .number(epoch.n.into())
                    .number(epoch.observations.into())
                    .end(out);
            }
        }
    }
    let counts = finder.counts;
    Line::new(b'T')
        .number(capture.len() as u32)
        .number(counts.frame_bytes as u32)
        .number(counts.junk as u32)
        .number(counts.bad as u32)
        .number(counts.short as u32)
        .end(out);
}

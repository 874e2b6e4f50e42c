//! A payload's answer without making a record.

use super::formats::format_of;

#[inline]
pub fn answer(msg_type: u16, payload: &[u8]) -> u8 {
    match msg_type {
        0x0049 if obs_length(payload.len()) => 0,
        0x0049 => 22,
        0x0401 => log_text(payload).err().unwrap_or(0),
        _ => format_of(msg_type).map_or(21, |format| format.answer(payload)),
    }
}

#[inline]
pub(super) fn obs_length(length: usize) -> bool {
    length & 15 == 7 && length <= 247
}

/// How long LOG's text is; or 22, 23.
#[inline]
pub(super) fn log_text(payload: &[u8]) -> Result<usize, u8> {
    if payload.is_empty() || payload.len() > 255 {
        return Err(22);
    }
    let tail = &payload[1..];
    let last = tail.iter().rposition(|&b| b != 0);
    let text = last.map_or(0, |last| last + 1);
    // Only the zeros at the end are padding.
    if tail[..text].contains(&0) {
        return Err(23);
    }
    Ok(text)
}

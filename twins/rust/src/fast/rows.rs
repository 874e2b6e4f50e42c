//! Rows of numbers, read and written by each type's format.

use super::answer::{log_text, obs_length};
use super::formats::Field::{self, Double, S16, S32, U16, U32, U8};
use super::formats::{format_of, Format, OBS_HEAD};
use crate::frames::Writer;

const HEADER: usize = 6;
const AROUND: usize = 8;
const CLIENT: u16 = 0x42;

impl Format {
    /// The numbers of a payload that is long enough, at the start of `row`.
    #[inline]
    fn take(&self, mut bytes: &[u8], row: &mut [u64]) {
        for (to, field) in row.iter_mut().zip(self.fields) {
            let (number, rest) = field.take(bytes);
            *to = number;
            bytes = rest;
        }
    }
}

impl Field {
    #[inline]
    fn take(self, bytes: &[u8]) -> (u64, &[u8]) {
        match self {
            U8 => (bytes[0].into(), &bytes[1..]),
            U16 => {
                let (front, rest) = front(bytes);
                (u16::from_le_bytes(front).into(), rest)
            }
            U32 => {
                let (front, rest) = front(bytes);
                (u32::from_le_bytes(front).into(), rest)
            }
            S16 => {
                let (front, rest) = front(bytes);
                (i64::from(i16::from_le_bytes(front)) as u64, rest)
            }
            S32 => {
                let (front, rest) = front(bytes);
                (i64::from(i32::from_le_bytes(front)) as u64, rest)
            }
            Double => {
                let (front, rest) = front(bytes);
                (u64::from_le_bytes(front), rest)
            }
        }
    }

    #[inline]
    fn fits(self, number: u64) -> bool {
        match self {
            U8 => number <= u8::MAX.into(),
            U16 => number <= u16::MAX.into(),
            U32 => number <= u32::MAX.into(),
            S16 => i16::try_from(number as i64).is_ok(),
            S32 => i32::try_from(number as i64).is_ok(),
            Double => true,
        }
    }

    /// Puts the number at the start, and gives its width.
    #[inline]
    fn put(self, number: u64, out: &mut [u8]) -> usize {
        let width = self.width();
        out[..width].copy_from_slice(&number.to_le_bytes()[..width]);
        width
    }
}

#[inline]
fn front<const SIZE: usize>(bytes: &[u8]) -> ([u8; SIZE], &[u8]) {
    let (front, rest) = bytes.split_at(SIZE);
    let mut taken = [0; SIZE];
    taken.copy_from_slice(front);
    (taken, rest)
}

/// A payload's numbers at the start of `row`: 21, 22, 23, 32.
pub fn read_row(msg_type: u16, payload: &[u8], row: &mut [u64]) -> u8 {
    let read = match msg_type {
        0x0049 => read_obs(payload, row),
        0x0401 => read_log(payload, row),
        _ => read_fixed(msg_type, payload, row),
    };
    read.err().unwrap_or(0)
}

fn read_fixed(msg_type: u16, payload: &[u8], row: &mut [u64]) -> Result<(), u8> {
    let format = format_of(msg_type).ok_or(21)?;
    match format.answer(payload) {
        0 => format.take(payload, row.get_mut(..format.fields.len()).ok_or(32)?),
        no => return Err(no),
    }
    Ok(())
}

fn read_obs(payload: &[u8], row: &mut [u64]) -> Result<(), u8> {
    if !obs_length(payload.len()) {
        return Err(22);
    }
    let row = row.first_chunk_mut::<4>().ok_or(32)?;
    OBS_HEAD.take(payload, row);
    row[3] = payload.len() as u64 / 16;
    Ok(())
}

fn read_log(payload: &[u8], row: &mut [u64]) -> Result<(), u8> {
    let text = log_text(payload)?;
    let padding = payload.len() - 1 - text;
    let row = row.first_chunk_mut().ok_or(32)?;
    *row = [payload[0].into(), text as u64, padding as u64];
    Ok(())
}

/// The number that a frame goes out under.
#[inline]
fn sender(msg_type: u16, writer: Writer) -> u16 {
    match (writer.given, msg_type) {
        (Some(given), _) => given,
        (None, 0x00A1 | 0x00A2) => CLIENT,
        (None, _) => writer.own,
    }
}

/// The frame of a row at the start of `out`, and its size; or 21, 22, 23, 32.
/// `crc` is `crc_table` or `crc_sliced`.
#[inline]
pub fn write_row(
    crc: impl Fn(u16, &[u8]) -> u16,
    out: &mut [u8],
    msg_type: u16,
    writer: Writer,
    row: &[u64],
) -> Result<usize, u8> {
    let format = format_of(msg_type).ok_or(21)?;
    if row.len() != format.fields.len() {
        return Err(22);
    }
    let fit = row.iter().zip(format.fields).all(|(&n, f)| f.fits(n));
    if !fit || !format.in_range(row) {
        return Err(23);
    }
    let size = format.length + AROUND;
    let out = out.get_mut(..size).ok_or(32)?;
    out[0] = 0x55;
    out[1..3].copy_from_slice(&msg_type.to_le_bytes());
    out[3..5].copy_from_slice(&sender(msg_type, writer).to_le_bytes());
    out[5] = format.length as u8;
    let mut at = HEADER;
    for (&number, field) in row.iter().zip(format.fields) {
        at += field.put(number, &mut out[at..]);
    }
    let sum = crc(0, &out[1..at]);
    out[at..].copy_from_slice(&sum.to_le_bytes());
    Ok(size)
}

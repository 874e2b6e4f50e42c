//! One field of a payload, or several that stand together: little-endian both
//! ways, and as 64-bit numbers.

use super::Double;
use crate::numbers::{No, LENGTH_WRONG, OUT_OF_RANGE};

pub trait Field: Sized {
    /// Its bytes in a payload, and its numbers in a row.
    const SIZE: usize;
    const NUMBERS: usize;

    /// Takes its bytes from the front of `bytes`.
    fn take(bytes: &mut &[u8]) -> Self;
    /// Adds its bytes to the end of `payload`.
    fn put(&self, payload: &mut Vec<u8>);
    /// Adds its numbers to the end of `row`: unsigned as they are, signed
    /// sign-extended, doubles as their bits.
    fn put_numbers(&self, row: &mut Vec<u64>);
    /// Takes its numbers from the front of `row`: 22 where the row has ended,
    /// 23 where a field cannot hold its number.
    fn take_numbers(row: &mut &[u64]) -> Result<Self, No>;

    /// A row of its own.
    fn row(&self) -> Vec<u64> {
        let mut row = Vec::with_capacity(Self::NUMBERS);
        self.put_numbers(&mut row);
        row
    }

    /// Of a row of its own: 22 for another count of numbers, then 23.
    fn of_row(row: &[u64]) -> Result<Self, No> {
        if row.len() != Self::NUMBERS {
            return Err(LENGTH_WRONG);
        }
        Self::take_numbers(&mut &row[..])
    }
}

/// The first `SIZE` bytes; callers have checked the payload's length.
fn front<const SIZE: usize>(bytes: &mut &[u8]) -> [u8; SIZE] {
    let (head, tail) = bytes.split_at(SIZE);
    *bytes = tail;
    let mut taken = [0; SIZE];
    taken.copy_from_slice(head);
    taken
}

fn next(row: &mut &[u64]) -> Result<u64, No> {
    let (&number, rest) = row.split_first().ok_or(LENGTH_WRONG)?;
    *row = rest;
    Ok(number)
}

macro_rules! integer_field {
    ($($kind:ty, $wide:ty;)*) => {$(
        impl Field for $kind {
            const SIZE: usize = size_of::<$kind>();
            const NUMBERS: usize = 1;

            fn take(bytes: &mut &[u8]) -> Self {
                <$kind>::from_le_bytes(front(bytes))
            }

            fn put(&self, payload: &mut Vec<u8>) {
                payload.extend_from_slice(&self.to_le_bytes());
            }

            fn put_numbers(&self, row: &mut Vec<u64>) {
                row.push(<$wide>::from(*self) as u64);
            }

            fn take_numbers(row: &mut &[u64]) -> Result<Self, No> {
                <$kind>::try_from(next(row)? as $wide).map_err(|_| OUT_OF_RANGE)
            }
        }
    )*};
}

integer_field!(u8, u64; u16, u64; u32, u64; i16, i64; i32, i64;);

impl Field for Double {
    const SIZE: usize = 8;
    const NUMBERS: usize = 1;

    fn take(bytes: &mut &[u8]) -> Self {
        Double {
            bits: u64::from_le_bytes(front(bytes)),
        }
    }

    fn put(&self, payload: &mut Vec<u8>) {
        payload.extend_from_slice(&self.bits.to_le_bytes());
    }

    fn put_numbers(&self, row: &mut Vec<u64>) {
        row.push(self.bits);
    }

    fn take_numbers(row: &mut &[u64]) -> Result<Self, No> {
        Ok(Double { bits: next(row)? })
    }
}

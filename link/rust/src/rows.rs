//! How numbers cross: messages as one 64-bit number for each field, what is
//! found in a capture and reported of it as little-endian rows of bytes.

use std::slice::{Iter, IterMut};

use crate::raw;
use crate::refusal::{Refusal, answered};

/// A field's number and back: unsigned as they are, signed sign-extended,
/// doubles as their bit pattern.
pub(crate) trait Field {
    fn number(self) -> u64;
    fn of(number: u64) -> Self;
}

macro_rules! integers {
    ($($format:ty)*) => {$(
        impl Field for $format {
            fn number(self) -> u64 {
                i64::from(self) as u64
            }

            fn of(number: u64) -> $format {
                number as $format
            }
        }
    )*};
}

integers!(u8 u16 u32 i16 i32);

impl Field for f64 {
    fn number(self) -> u64 {
        self.to_bits()
    }

    fn of(number: u64) -> f64 {
        f64::from_bits(number)
    }
}

/// What takes numbers of a row one after the other: a field one, an array those
/// of its elements, a struct those of its fields.
pub(crate) trait Part: Sized {
    /// How many it takes.
    const NUMBERS: usize;

    fn put(self, row: &mut IterMut<u64>);
    fn take(row: &mut Iter<u64>) -> Self;
}

impl<F: Field> Part for F {
    const NUMBERS: usize = 1;

    fn put(self, row: &mut IterMut<u64>) {
        *next(row) = self.number();
    }

    fn take(row: &mut Iter<u64>) -> F {
        F::of(*next(row))
    }
}

impl<P: Part, const N: usize> Part for [P; N] {
    const NUMBERS: usize = N * P::NUMBERS;

    fn put(self, row: &mut IterMut<u64>) {
        self.into_iter().for_each(|part| part.put(row));
    }

    fn take(row: &mut Iter<u64>) -> [P; N] {
        std::array::from_fn(|_| P::take(row))
    }
}

fn next<T>(row: &mut impl Iterator<Item = T>) -> T {
    row.next().expect("a row has all numbers of its parts")
}

/// All of a part's numbers.
pub(crate) fn row_of<const N: usize>(part: impl Part) -> [u64; N] {
    let mut row = [0; N];
    part.put(&mut row.iter_mut());
    row
}

/// The part of these numbers.
pub(crate) fn of_row<P: Part, const N: usize>(row: [u64; N]) -> P {
    P::take(&mut row.iter())
}

/// The numbers of a payload of that type, so many as its message has.
pub(crate) fn read<const N: usize>(kind: u16, payload: &[u8]) -> Result<[u64; N], Refusal> {
    let mut row = [0; N];
    let told = unsafe { raw::sbp_read(kind, payload.as_ptr(), payload.len(), row.as_mut_ptr(), N) };
    answered(told).map(|()| row)
}

/// A little-endian number of some bytes in a row.
pub(crate) fn number(row: &[u8], at: usize, width: usize) -> u64 {
    let bytes = &row[at..at + width];
    bytes.iter().rev().fold(0, |n, &b| n << 8 | u64::from(b))
}

//! A message of fixed length is a list of fields in order, and a range.

use super::Field;
use crate::frames::{self, Writer};
use crate::numbers::{No, LENGTH_WRONG, OUT_OF_RANGE};

pub trait Fixed: Field {
    const TYPE: u16;

    /// Whether its ranged field, where it has one, is inside.
    fn in_range(&self) -> bool;

    /// 22, then 23.
    fn read(payload: &[u8]) -> Result<Self, No> {
        if payload.len() != Self::SIZE {
            return Err(LENGTH_WRONG);
        }
        let record = Self::take(&mut &payload[..]);
        if !record.in_range() {
            return Err(OUT_OF_RANGE);
        }
        Ok(record)
    }

    /// Writes the whole frame at the start of `out` and gives its size: 23,
    /// 31, 32.
    fn write(&self, writer: Writer, out: &mut [u8]) -> Result<usize, No> {
        if !self.in_range() {
            return Err(OUT_OF_RANGE);
        }
        let mut payload = Vec::with_capacity(Self::SIZE);
        self.put(&mut payload);
        frames::write(Self::TYPE, writer, &payload, out)
    }
}

/// Makes the record of a message. Its length, as the documents have it, is
/// held against the fields.
macro_rules! fixed {
    (
        $(#[$doc:meta])*
        $name:ident, $type:literal, $length:literal, $fields:tt, $in_range:expr
    ) => {
        $crate::messages::group::group!($(#[$doc])* $name $fields);

        const _: () = assert!(<$name as $crate::messages::Field>::SIZE == $length);

        impl $crate::messages::Fixed for $name {
            const TYPE: u16 = $type;

            fn in_range(&self) -> bool {
                let rule: fn(&Self) -> bool = $in_range;
                rule(self)
            }
        }
    };
}

/// For messages whose fields all take any value.
pub fn any_value<T>(_: &T) -> bool {
    true
}

pub(crate) use fixed;

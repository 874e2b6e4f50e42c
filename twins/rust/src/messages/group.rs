//! Fields that stand together are a field again: each in order.

/// Makes the record and says what its fields say, one after the other.
macro_rules! group {
    (
        $(#[$doc:meta])*
        $name:ident { $($field:ident: $kind:ty),* $(,)? }
    ) => {
        $(#[$doc])*
        #[derive(Clone, Copy, Debug, PartialEq, Eq)]
        pub struct $name {
            $(pub $field: $kind,)*
        }

        // An underscore before a name is for the messages without fields.
        impl $crate::messages::Field for $name {
            const SIZE: usize = 0 $(+ <$kind as $crate::messages::Field>::SIZE)*;
            const NUMBERS: usize = 0 $(+ <$kind as $crate::messages::Field>::NUMBERS)*;

            fn take(_bytes: &mut &[u8]) -> Self {
                Self {
                    $($field: $crate::messages::Field::take(_bytes),)*
                }
            }

            fn put(&self, _payload: &mut Vec<u8>) {
                $($crate::messages::Field::put(&self.$field, _payload);)*
            }

            fn put_numbers(&self, _row: &mut Vec<u64>) {
                $($crate::messages::Field::put_numbers(&self.$field, _row);)*
            }

            fn take_numbers(_row: &mut &[u64]) -> Result<Self, $crate::numbers::No> {
                Ok(Self {
                    $($field: $crate::messages::Field::take_numbers(_row)?,)*
                })
            }
        }
    };
}

pub(crate) use group;

//! A message's fields, formats and order are said once, where its struct is.

/// A struct that crosses as a row of numbers: its fields, which may be such
/// structs themselves, and both ways.
macro_rules! rowed {
    (
        $(#[$about:meta])*
        $name:ident { $($(#[$meaning:meta])* $field:ident: $format:ty,)* }
    ) => {
        $(#[$about])*
        #[derive(Clone, Copy, Debug, Default, PartialEq)]
        pub struct $name {
            $($(#[$meaning])* pub $field: $format,)*
        }

        impl $name {
            /// How many fields it has, those of a part counted one by one.
            ///
            /// ```
            #[doc = concat!("use yaqtumeer::", stringify!($name), ";")]
            ///
            #[doc = concat!("let row = ", stringify!($name), "::default().row();")]
            #[doc = concat!("assert_eq!(row.len(), ", stringify!($name), "::FIELDS);")]
            /// ```
            pub const FIELDS: usize = 0 $(+ <$format as crate::rows::Part>::NUMBERS)*;

            /// Its fields in order, a number each: unsigned as they are, signed
            /// sign-extended, doubles as their bit pattern. Equal rows are equal
            /// to the bit.
            ///
            /// ```
            #[doc = concat!("let row = yaqtumeer::", stringify!($name), "::default().row();")]
            #[doc = concat!("assert_eq!(row, [0; yaqtumeer::", stringify!($name), "::FIELDS]);")]
            /// ```
            pub fn row(&self) -> [u64; Self::FIELDS] {
                crate::rows::row_of(*self)
            }
        }

        // some have no fields
        #[allow(unused_variables)]
        impl crate::rows::Part for $name {
            const NUMBERS: usize = $name::FIELDS;

            fn put(self, row: &mut std::slice::IterMut<u64>) {
                $(crate::rows::Part::put(self.$field, row);)*
            }

            fn take(row: &mut std::slice::Iter<u64>) -> $name {
                $name { $($field: crate::rows::Part::take(row)),* }
            }
        }
    };
}

/// A message that is a row and nothing else.
macro_rules! message {
    (
        $(#[$about:meta])*
        $name:ident = $kind:literal, $published:literal { $($fields:tt)* }
    ) => {
        rowed! { $(#[$about])* $name { $($fields)* } }
        kind! { $name = $kind, $published }

        impl $name {
            /// Reads a payload.
            ///
            /// Refused: [`Refusal::WrongLength`](crate::Refusal::WrongLength),
            /// [`Refusal::OutOfRange`](crate::Refusal::OutOfRange).
            ///
            /// ```
            #[doc = concat!("use yaqtumeer::{", stringify!($name), ", Refusal, Writer};")]
            ///
            #[doc = concat!("let frame = ", stringify!($name), "::default().frame(Writer::new(1228)).unwrap();")]
            /// let payload = &frame[6..frame.len() - 2];
            #[doc = concat!("assert_eq!(", stringify!($name), "::read(payload), Ok(", stringify!($name), "::default()));")]
            #[doc = concat!("assert_eq!(", stringify!($name), "::read(&[0; 99]), Err(Refusal::WrongLength));")]
            /// ```
            pub fn read(payload: &[u8]) -> Result<$name, crate::Refusal> {
                let row: [u64; Self::FIELDS] = crate::rows::read($name::KIND, payload)?;
                Ok(crate::rows::of_row(row))
            }

            /// Writes it as a frame at the buffer's start, and says the frame's
            /// length. The [`Writer`](crate::Writer) says who sends it.
            ///
            /// Refused: [`Refusal::OutOfRange`](crate::Refusal::OutOfRange),
            /// [`Refusal::NoRoom`](crate::Refusal::NoRoom); then nothing is
            /// written.
            ///
            /// ```
            #[doc = concat!("use yaqtumeer::{", stringify!($name), ", LONGEST_FRAME, Refusal, Writer};")]
            ///
            /// let (mut out, recorder) = ([0; LONGEST_FRAME], Writer::new(1228));
            #[doc = concat!("let size = ", stringify!($name), "::default().write(recorder.named(7), &mut out).unwrap();")]
            /// assert_eq!((out[0], out[3]), (0x55, 7));
            /// let short = &mut out[..size - 1];
            #[doc = concat!("assert_eq!(", stringify!($name), "::default().write(recorder, short), Err(Refusal::NoRoom));")]
            /// ```
            pub fn write(&self, writer: crate::Writer, out: &mut [u8]) -> Result<usize, crate::Refusal> {
                crate::writing::write_row(out, $name::KIND, writer, &self.row())
            }
        }
    };
}

/// What every message has: its type number, its name, its frame.
macro_rules! kind {
    ($name:ident = $kind:literal, $published:literal) => {
        impl $name {
            /// Its type number.
            ///
            /// ```
            #[doc = concat!("assert_eq!(yaqtumeer::", stringify!($name), "::KIND, ", stringify!($kind), ");")]
            /// ```
            pub const KIND: u16 = $kind;

            /// Its name in the published protocol.
            ///
            /// ```
            #[doc = concat!("assert_eq!(yaqtumeer::", stringify!($name), "::NAME, ", stringify!($published), ");")]
            /// ```
            pub const NAME: &'static str = $published;

            /// The frame that [`write`](Self::write) writes, in memory of its own.
            ///
            /// ```
            #[doc = concat!("use yaqtumeer::{Frames, ", stringify!($name), ", Writer};")]
            ///
            #[doc = concat!("let frame = ", stringify!($name), "::default().frame(Writer::new(1228).named(7)).unwrap();")]
            /// let found = Frames::closed(&frame).next().unwrap();
            #[doc = concat!("assert_eq!((found.kind, found.sender), (", stringify!($name), "::KIND, 7));")]
            /// ```
            pub fn frame(&self, writer: crate::Writer) -> Result<Vec<u8>, crate::Refusal> {
                crate::writing::framed(|out| self.write(writer, out))
            }
        }
    };
}

/// What flags mean in a message whose table has a fix mode; a flag of each
/// meaning, for the examples.
macro_rules! fixed {
    ($name:ident: fixed $fixed:literal, available $available:literal, repaired $repaired:literal) => {
        impl $name {
            /// How it was found.
            ///
            /// ```
            #[doc = concat!("use yaqtumeer::{Fix, ", stringify!($name), "};")]
            ///
            #[doc = concat!("let found = ", stringify!($name), " { flags: ", $fixed, ", ..", stringify!($name), "::default() };")]
            /// assert_eq!(found.fix(), Fix::Fixed);
            /// ```
            pub fn fix(&self) -> crate::Fix {
                crate::flags::fix($name::KIND, self.flags)
            }

            /// Whether a RAIM check (one of the satellites against another) was available.
            ///
            /// ```
            #[doc = concat!("use yaqtumeer::", stringify!($name), ";")]
            ///
            #[doc = concat!("let found = ", stringify!($name), " { flags: ", $available, ", ..", stringify!($name), "::default() };")]
            /// assert!(found.raim_available() && !found.raim_repaired());
            /// ```
            pub fn raim_available(&self) -> bool {
                crate::flags::raim_available($name::KIND, self.flags)
            }

            /// Whether it came from a RAIM repair.
            ///
            /// ```
            #[doc = concat!("use yaqtumeer::", stringify!($name), ";")]
            ///
            #[doc = concat!("let found = ", stringify!($name), " { flags: ", $repaired, ", ..", stringify!($name), "::default() };")]
            /// assert!(found.raim_repaired() && !found.raim_available());
            /// ```
            pub fn raim_repaired(&self) -> bool {
                crate::flags::raim_repaired($name::KIND, self.flags)
            }
        }
    };
}

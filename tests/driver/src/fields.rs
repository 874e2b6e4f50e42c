//! A message's numbers, from its struct and to it, field by field.

use yaqtumeer::*;

/// The 64-bit numbers of a field, of a part or of a message, and what of numbers
/// that it can hold.
pub trait Numbers: Sized {
    fn put(&self, row: &mut Vec<u64>);
    fn next(row: &mut impl Iterator<Item = u64>) -> Option<Self>;
}

macro_rules! integers {
    ($($kind:ty, $wide:ty;)*) => {$(
        impl Numbers for $kind {
            fn put(&self, row: &mut Vec<u64>) {
                row.push(<$wide>::from(*self) as u64);
            }

            fn next(row: &mut impl Iterator<Item = u64>) -> Option<$kind> {
                <$kind>::try_from(row.next()? as $wide).ok()
            }
        }
    )*};
}

integers!(u8, u64; u16, u64; u32, u64; i16, i64; i32, i64;);

impl Numbers for f64 {
    fn put(&self, row: &mut Vec<u64>) {
        row.push(self.to_bits());
    }

    fn next(row: &mut impl Iterator<Item = u64>) -> Option<f64> {
        row.next().map(f64::from_bits)
    }
}

impl<const N: usize> Numbers for [f64; N] {
    fn put(&self, row: &mut Vec<u64>) {
        self.iter().for_each(|number| number.put(row));
    }

    fn next(row: &mut impl Iterator<Item = u64>) -> Option<[f64; N]> {
        let numbers: Vec<f64> = row.take(N).map(f64::from_bits).collect();
        numbers.try_into().ok()
    }
}

/// Structs by their fields in order.
macro_rules! fields {
    ($($name:ident { $($field:ident)* })*) => {$(
        impl Numbers for $name {
            fn put(&self, _row: &mut Vec<u64>) {
                $(self.$field.put(_row);)*
            }

            fn next(_row: &mut impl Iterator<Item = u64>) -> Option<$name> {
                Some($name { $($field: Numbers::next(_row)?),* })
            }
        }
    )*};
}

fields! {
    TimeOfWeek { tow wn }
    Satellite { sat code reserved }
    EphemerisCommon { sid toe ura fit_interval valid health }
    Motion { pos vel acc }
    Observation { p l_i l_f cn0 lock sat code reserved }
}

pub fn numbers_of(one: &impl Numbers) -> Vec<u64> {
    let mut row = Vec::new();
    one.put(&mut row);
    row
}

/// The messages without a tail: type, and fields in order.
macro_rules! messages {
    ($($name:ident $kind:literal { $($field:ident)* })*) => {
        fields! { $($name { $($field)* })* }

        pub fn row_of(message: &Message) -> Vec<u64> {
            match message {
                $(Message::$name(m) => numbers_of(m),)*
                Message::Obs(obs) => obs_row(obs),
                Message::Log(log) => log_row(log),
            }
        }

        pub fn of_row(kind: u16, row: &[u64]) -> Option<Message> {
            let numbers = &mut row.iter().copied();
            match kind {
                $($kind => $name::next(numbers).map(Message::from),)*
                _ => None,
            }
        }
    };
}

messages! {
    GpsTime 0x0100 { wn tow ns flags }
    Dops 0x0206 { tow gdop pdop tdop hdop vdop }
    PosEcef 0x0200 { tow x y z accuracy n_sats flags }
    PosLlh 0x0201 { tow lat lon height h_accuracy v_accuracy n_sats flags }
    BaselineEcef 0x0202 { tow x y z accuracy n_sats flags }
    VelEcef 0x0204 { tow x y z accuracy n_sats flags }
    BaselineNed 0x0203 { tow n e d h_accuracy v_accuracy n_sats flags }
    VelNed 0x0205 { tow n e d h_accuracy v_accuracy n_sats flags }
    BaselineHeading 0x0207 { tow heading n_sats flags }
    BasePosLlh 0x0044 { lat lon height }
    BasePosEcef 0x0048 { x y z }
    EphemerisGps 0x0081 {
        common tgd c_rs c_rc c_uc c_us c_ic c_is dn m0 ecc sqrta omega0 omegadot w inc inc_dot af0 af1
        af2 toc iode iodc
    }
    EphemerisSbas 0x0082 { common motion a_gf0 a_gf1 }
    EphemerisGlo 0x0083 { common gamma tau motion }
    Iono 0x0090 { t_nmct a b }
    SvConfigurationGps 0x0091 { t_nmct l2c_mask }
    GroupDelay 0x0092 { t_op prn valid tgd isc_l1ca isc_l2c }
    SettingsSave 0x00A1 {}
    ReadByIndexDone 0x00A6 {}
    ReadByIndexReq 0x00A2 { index }
    Startup 0xFF00 { reserved }
    Heartbeat 0xFFFF { flags }
}

/// The header, how many observations, and the numbers of each.
fn obs_row(obs: &Obs) -> Vec<u64> {
    let mut row = Vec::new();
    obs.tow.put(&mut row);
    obs.wn.put(&mut row);
    obs.n_obs.put(&mut row);
    row.push(obs.observations.len() as u64);
    row.extend(obs.observations.iter().flat_map(numbers_of));
    row
}

pub fn obs_of(head: &[u64], rows: &[u64]) -> Option<Obs> {
    let head = &mut head.iter().copied();
    let observation = |row: &[u64]| Observation::next(&mut row.iter().copied());
    Some(Obs {
        tow: Numbers::next(head)?,
        wn: Numbers::next(head)?,
        n_obs: Numbers::next(head)?,
        observations: rows.chunks(8).map(observation).collect::<Option<_>>()?,
    })
}

/// The level, how many bytes of text, how many zeros after it, and each byte of
/// the text.
fn log_row(log: &Log) -> Vec<u64> {
    let mut row = vec![log.level.into(), log.text.len() as u64];
    row.push(log.padding as u64);
    row.extend(log.text.iter().map(|&byte| u64::from(byte)));
    row
}

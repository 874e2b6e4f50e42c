//! A message's name and fields, as the SBP specification calls them.

use super::{push_key, push_number, text};
use crate::number;
use yaqtumeer::{EphemerisCommon, Log, Message, Obs, Observation, Satellite, TimeOfWeek};

/// A field's value in JSON.
trait Value {
    fn push(&self, text: &mut Vec<u8>);
}

macro_rules! integers {
    ($($format:ty)*) => {$(
        impl Value for $format {
            fn push(&self, text: &mut Vec<u8>) {
                number::push_signed(text, *self);
            }
        }
    )*};
}

integers!(u8 u16 u32 i16 i32);

impl Value for f64 {
    fn push(&self, text: &mut Vec<u8>) {
        number::push_double(text, *self);
    }
}

impl<V: Value> Value for [V] {
    fn push(&self, text: &mut Vec<u8>) {
        text.push(b'[');
        for (i, one) in self.iter().enumerate() {
            if i > 0 {
                text.push(b',');
            }
            one.push(text);
        }
        text.push(b']');
    }
}

/// Values with what stands before each of them, and what stands last.
macro_rules! interleaved {
    ($text:ident: $($before:literal $value:expr),*; $last:literal) => {{
        $(
            $text.extend_from_slice($before);
            $value.push($text);
        )*
        $text.extend_from_slice($last);
    }};
}

impl Value for TimeOfWeek {
    fn push(&self, text: &mut Vec<u8>) {
        interleaved!(text: br#"{"tow":"# self.tow, br#","wn":"# self.wn; b"}");
    }
}

impl Value for Satellite {
    fn push(&self, text: &mut Vec<u8>) {
        interleaved!(text: br#"{"sat":"# self.sat, br#","code":"# self.code, br#","reserved":"# self.reserved; b"}");
    }
}

impl Value for EphemerisCommon {
    fn push(&self, text: &mut Vec<u8>) {
        interleaved!(text: br#"{"sid":"# self.sid, br#","toe":"# self.toe, br#","ura":"# self.ura; b"");
        interleaved!(text: br#","fit_interval":"# self.fit_interval, br#","valid":"# self.valid, br#","health":"# self.health; b"}");
    }
}

/// Where a message has a field: under its key, or where the line below says.
macro_rules! place {
    ($message:ident $key:ident) => {
        $message.$key
    };
    ($message:ident $key:ident $($place:tt)+) => {
        $message.$($place)+
    };
}

macro_rules! messages {
    ($($message:ident: $($key:ident $(($($place:tt)+))?)*;)*) => {
        /// What a type is called, if it has a reading.
        pub fn name(kind: u16) -> Option<&'static str> {
            match kind {
                $(yaqtumeer::$message::KIND => Some(yaqtumeer::$message::NAME),)*
                Obs::KIND => Some(Obs::NAME),
                Log::KIND => Some(Log::NAME),
                _ => None,
            }
        }

        // some messages have no fields
        #[allow(unused_variables)]
        pub fn push(text: &mut Vec<u8>, message: &Message) {
            match message {
                $(Message::$message(m) => {$(
                    push_key(text, stringify!($key));
                    place!(m $key $($($place)+)?).push(text);
                )*})*
                Message::Obs(m) => push_obs(text, m),
                Message::Log(m) => push_log(text, m),
            }
        }
    };
}

messages! {
    GpsTime: wn tow ns flags;
    Dops: tow gdop pdop tdop hdop vdop;
    PosEcef: tow x y z accuracy n_sats flags;
    PosLlh: tow lat lon height h_accuracy v_accuracy n_sats flags;
    BaselineEcef: tow x y z accuracy n_sats flags;
    VelEcef: tow x y z accuracy n_sats flags;
    BaselineNed: tow n e d h_accuracy v_accuracy n_sats flags;
    VelNed: tow n e d h_accuracy v_accuracy n_sats flags;
    BaselineHeading: tow heading n_sats flags;
    BasePosLlh: lat lon height;
    BasePosEcef: x y z;
    EphemerisGps: common tgd c_rs c_rc c_uc c_us c_ic c_is dn m0 ecc sqrta omega0 omegadot w inc inc_dot af0 af1 af2 toc iode iodc;
    EphemerisSbas: common pos(motion.pos) vel(motion.vel) acc(motion.acc) a_gf0 a_gf1;
    EphemerisGlo: common gamma tau pos(motion.pos) vel(motion.vel) acc(motion.acc);
    Iono: t_nmct a0(a[0]) a1(a[1]) a2(a[2]) a3(a[3]) b0(b[0]) b1(b[1]) b2(b[2]) b3(b[3]);
    SvConfigurationGps: t_nmct l2c_mask;
    GroupDelay: t_op prn valid tgd isc_l1ca isc_l2c;
    SettingsSave: ;
    ReadByIndexDone: ;
    ReadByIndexReq: index;
    Startup: reserved;
    Heartbeat: flags;
}

fn push_log(text: &mut Vec<u8>, log: &Log) {
    push_number(text, "level", log.level);
    push_key(text, "text");
    text::push(text, &log.text);
    push_number(text, "padding", log.padding as u64);
}

fn push_obs(text: &mut Vec<u8>, m: &Obs) {
    let (tow, wn) = (m.tow, m.wn);
    interleaved!(text: br#","header":{"t":"# TimeOfWeek { tow, wn }, br#","n_obs":"# m.n_obs, br#"},"obs":"# m.observations[..]; b"");
}

impl Value for Observation {
    fn push(&self, text: &mut Vec<u8>) {
        let (sat, code, reserved) = (self.sat, self.code, self.reserved);
        interleaved!(text: br#"{"P":"# self.p, br#","L":{"i":"# self.l_i, br#","f":"# self.l_f, br#"},"cn0":"# self.cn0; b"");
        interleaved!(text: br#","lock":"# self.lock, br#","sid":"# Satellite { sat, code, reserved }; b"}");
    }
}

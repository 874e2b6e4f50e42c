//! What every value of the flags means, message by message.

#[macro_use]
mod common;

use common::WRITER;
use yaqtumeer::*;

/// The fix modes that the message's table has, from 0 on; the bits of the two
/// RAIM flags.
macro_rules! meanings {
    ($name:ident, $table:expr, $available:literal, $repaired:literal) => {
        for flags in 0..=u8::MAX {
            let message = $name {
                flags,
                ..$name::default()
            };
            let what = format!("{} {flags:#04x}", stringify!($name));
            let mode = $table.get(usize::from(flags % 8)).copied();
            same!(what, message.fix(), mode.unwrap_or(Fix::Reserved));
            same!(what, message.raim_available(), flags >> $available & 1 == 1);
            same!(what, message.raim_repaired(), flags >> $repaired & 1 == 1);
            // a mode that the table leaves out can be neither written nor read
            let told = message.frame(WRITER);
            same!(
                what,
                told.clone().err(),
                mode.is_none().then_some(Refusal::OutOfRange)
            );
            if let Ok(frame) = told {
                same!(what, $name::read(&frame[6..frame.len() - 2]), Ok(message));
            }
        }
    };
}

#[test]
fn positions() {
    meanings!(PosEcef, [Fix::SinglePoint, Fix::Float, Fix::Fixed], 3, 4);
    meanings!(PosLlh, [Fix::SinglePoint, Fix::Fixed, Fix::Float], 4, 5);
}

#[test]
fn height() {
    for flags in 0..=u8::MAX {
        let place = PosLlh {
            flags,
            ..PosLlh::default()
        };
        same!(
            format!("{flags:#04x}"),
            place.above_sea(),
            flags >> 3 & 1 == 1
        );
    }
}

#[test]
fn baselines() {
    meanings!(BaselineEcef, [Fix::Float, Fix::Fixed], 3, 4);
    meanings!(BaselineNed, [Fix::Float, Fix::Fixed], 3, 4);
    meanings!(BaselineHeading, [Fix::Float, Fix::Fixed], 3, 4);
}

#[test]
fn reserved_flags_take_any_value() {
    for flags in 0..=u8::MAX {
        same!(
            "GpsTime",
            GpsTime {
                flags,
                ..GpsTime::default()
            }
            .frame(WRITER)
            .is_ok(),
            true
        );
        same!(
            "VelEcef",
            VelEcef {
                flags,
                ..VelEcef::default()
            }
            .frame(WRITER)
            .is_ok(),
            true
        );
        same!(
            "VelNed",
            VelNed {
                flags,
                ..VelNed::default()
            }
            .frame(WRITER)
            .is_ok(),
            true
        );
    }
}

#[test]
fn heartbeat() {
    for bit in 0..32 {
        for flags in [1 << bit, !(1 << bit)] {
            let beat = Heartbeat { flags };
            let has = |n: u32| flags >> n & 1 == 1;
            same!(format!("{flags:#x}"), beat.system_error(), has(0));
            same!(format!("{flags:#x}"), beat.io_error(), has(1));
            same!(format!("{flags:#x}"), beat.nap_error(), has(2));
            same!(format!("{flags:#x}"), beat.external_antenna(), has(31));
        }
    }
}

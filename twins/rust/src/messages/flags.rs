//! What the flag bits mean. The two position messages number their fix modes
//! differently, so each message has its own function.

use super::{BaselineEcef, BaselineHeading, BaselineNed, Fixed, PosEcef, PosLlh};
use crate::numbers::{No, TYPE_UNKNOWN};

#[derive(Clone, Copy, Debug, PartialEq, Eq)]
pub enum FixMode {
    SinglePoint,
    Float,
    Fixed,
}

#[derive(Clone, Copy, Debug, PartialEq, Eq)]
pub enum HeightMode {
    AboveEllipsoid,
    AboveSeaLevel,
}

fn bit(flags: u32, at: u32) -> bool {
    flags >> at & 1 == 1
}

/// POS_ECEF: 1 is float, 2 is fixed; none for a mode outside the range.
pub fn pos_ecef_fix_mode(flags: u8) -> Option<FixMode> {
    match flags & 7 {
        0 => Some(FixMode::SinglePoint),
        1 => Some(FixMode::Float),
        2 => Some(FixMode::Fixed),
        _ => None,
    }
}

/// POS_LLH: 1 is fixed, 2 is float.
pub fn pos_llh_fix_mode(flags: u8) -> Option<FixMode> {
    match flags & 7 {
        0 => Some(FixMode::SinglePoint),
        1 => Some(FixMode::Fixed),
        2 => Some(FixMode::Float),
        _ => None,
    }
}

/// Both baselines and the heading: 0 is float, 1 is fixed.
pub fn baseline_fix_mode(flags: u8) -> Option<FixMode> {
    match flags & 7 {
        0 => Some(FixMode::Float),
        1 => Some(FixMode::Fixed),
        _ => None,
    }
}

pub fn pos_ecef_raim_available(flags: u8) -> bool {
    bit(flags.into(), 3)
}

pub fn pos_ecef_raim_repair(flags: u8) -> bool {
    bit(flags.into(), 4)
}

/// In POS_LLH bit 3 is the height mode; RAIM moves up by one.
pub fn pos_llh_height_mode(flags: u8) -> HeightMode {
    if bit(flags.into(), 3) {
        HeightMode::AboveSeaLevel
    } else {
        HeightMode::AboveEllipsoid
    }
}

pub fn pos_llh_raim_available(flags: u8) -> bool {
    bit(flags.into(), 4)
}

pub fn pos_llh_raim_repair(flags: u8) -> bool {
    bit(flags.into(), 5)
}

/// Both baselines and the heading.
pub fn baseline_raim_available(flags: u8) -> bool {
    bit(flags.into(), 3)
}

pub fn baseline_raim_repair(flags: u8) -> bool {
    bit(flags.into(), 4)
}

/// The same by a message's type: 21 for a type without.
pub fn fix_mode(msg_type: u16, flags: u8) -> Result<Option<FixMode>, No> {
    match msg_type {
        PosEcef::TYPE => Ok(pos_ecef_fix_mode(flags)),
        PosLlh::TYPE => Ok(pos_llh_fix_mode(flags)),
        BaselineEcef::TYPE | BaselineNed::TYPE | BaselineHeading::TYPE => {
            Ok(baseline_fix_mode(flags))
        }
        _ => Err(TYPE_UNKNOWN),
    }
}

pub fn raim_available(msg_type: u16, flags: u8) -> Result<bool, No> {
    match msg_type {
        PosEcef::TYPE => Ok(pos_ecef_raim_available(flags)),
        PosLlh::TYPE => Ok(pos_llh_raim_available(flags)),
        BaselineEcef::TYPE | BaselineNed::TYPE | BaselineHeading::TYPE => {
            Ok(baseline_raim_available(flags))
        }
        _ => Err(TYPE_UNKNOWN),
    }
}

pub fn raim_repair(msg_type: u16, flags: u8) -> Result<bool, No> {
    match msg_type {
        PosEcef::TYPE => Ok(pos_ecef_raim_repair(flags)),
        PosLlh::TYPE => Ok(pos_llh_raim_repair(flags)),
        BaselineEcef::TYPE | BaselineNed::TYPE | BaselineHeading::TYPE => {
            Ok(baseline_raim_repair(flags))
        }
        _ => Err(TYPE_UNKNOWN),
    }
}

pub fn height_mode(msg_type: u16, flags: u8) -> Result<HeightMode, No> {
    match msg_type {
        PosLlh::TYPE => Ok(pos_llh_height_mode(flags)),
        _ => Err(TYPE_UNKNOWN),
    }
}

pub fn heartbeat_system_error(flags: u32) -> bool {
    bit(flags, 0)
}

pub fn heartbeat_io_error(flags: u32) -> bool {
    bit(flags, 1)
}

pub fn heartbeat_nap_error(flags: u32) -> bool {
    bit(flags, 2)
}

pub fn heartbeat_antenna_present(flags: u32) -> bool {
    bit(flags, 31)
}

/// LOG's level is its low three bits in 003; the names are 003's.
pub fn log_level_name(level: u8) -> &'static str {
    match level & 7 {
        0 => "EMERG",
        1 => "ALERT",
        2 => "CRIT",
        3 => "ERROR",
        4 => "WARN",
        5 => "NOTICE",
        6 => "INFO",
        _ => "DEBUG",
    }
}

//! Document 01's "Numbers given back", and those of requests P5 and P7.

/// A refusal is carried as its number in document 01.
pub type No = u8;

pub const INPUT_TOO_LONG: No = 11;
pub const TYPE_UNKNOWN: No = 21;
pub const LENGTH_WRONG: No = 22;
pub const OUT_OF_RANGE: No = 23;
pub const NO_SUCH_OBSERVATION: No = 25;
pub const PAYLOAD_TOO_LONG: No = 31;
pub const BUFFER_TOO_SHORT: No = 32;
pub const PHASE_OUT_OF_RANGE: No = 33;
pub const ROSTER_SIZE: No = 41;
pub const ROSTER_TWICE: No = 42;
pub const NOT_ON_ROSTER: No = 43;
pub const N_IS_ZERO: No = 44;
pub const COUNTER_NOT_BELOW_N: No = 45;
pub const NOT_OBS: No = 46;
pub const COUNTER_AGAIN: No = 47;
pub const LIST_SHORT: No = 51;
pub const CAPTURE_SHORT: No = 52;

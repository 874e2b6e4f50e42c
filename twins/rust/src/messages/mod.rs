//! The payloads of document 01's table and of request P2, with 003's field
//! names.

mod answer;
mod any;
mod atmosphere;
mod base_pos;
mod double;
mod ephemerides;
mod field;
mod fixed;
pub mod flags;
mod group;
mod log;
mod navigation;
mod obs;
mod parts;
mod phase;
mod settings;
mod system;

pub use answer::answer;
pub use any::Message;
pub use atmosphere::*;
pub use base_pos::*;
pub use double::Double;
pub use ephemerides::*;
pub use field::Field;
pub use fixed::Fixed;
pub use log::Log;
pub use navigation::*;
pub use obs::{
    obs_of_rows, observation, observation_count, read_obs_header, write_obs, ObsHeader, ObsReader,
    Observation, OBS_TYPE,
};
pub use parts::*;
pub use phase::{phase_from_parts, phase_to_parts, PHASE_MAX, PHASE_MIN};
pub use settings::*;
pub use system::*;

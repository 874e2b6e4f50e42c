//! Any one message of the table, chosen by its type, and the row of numbers
//! that C and Rust exchange for it.

use super::*;
use crate::frames::Writer;
use crate::numbers::{No, TYPE_UNKNOWN};

/// The messages of fixed length, by the name of their record, among the two
/// that have a tail.
macro_rules! messages {
    ($($fixed:ident)*) => {
        #[derive(Clone, Debug, PartialEq, Eq)]
        pub enum Message<'a> {
            $($fixed($fixed),)*
            Obs(ObsHeader, Vec<Observation>),
            Log(Log<'a>),
        }

        impl<'a> Message<'a> {
            /// 21, 22, 23 in that order.
            pub fn read(msg_type: u16, payload: &'a [u8]) -> Result<Message<'a>, No> {
                match msg_type {
                    $($fixed::TYPE => $fixed::read(payload).map(Message::$fixed),)*
                    OBS_TYPE => read_obs(payload),
                    Log::TYPE => Log::read(payload).map(Message::Log),
                    _ => Err(TYPE_UNKNOWN),
                }
            }

            /// Writes the whole frame; 23, 31, 32 in that order.
            pub fn write(&self, writer: Writer, out: &mut [u8]) -> Result<usize, No> {
                match self {
                    $(Message::$fixed(m) => m.write(writer, out),)*
                    Message::Obs(header, observations) => {
                        write_obs(header, observations, writer, out)
                    }
                    Message::Log(m) => m.write(writer, out),
                }
            }

            /// A number for each field in order. Of OBS the header's and k; of
            /// LOG the level, the text's length and the padding.
            pub fn row(&self) -> Vec<u64> {
                match self {
                    $(Message::$fixed(m) => m.row(),)*
                    Message::Obs(header, observations) => {
                        let mut row = header.row();
                        row.push(observations.len() as u64);
                        row
                    }
                    Message::Log(m) => {
                        vec![m.level.into(), m.text.len() as u64, m.padding as u64]
                    }
                }
            }

            /// The message of a row, for those without a tail: 21 for all
            /// others, then 22 and 23. Ranges are for the writer to judge.
            pub fn of_row(msg_type: u16, row: &[u64]) -> Result<Message<'static>, No> {
                match msg_type {
                    $($fixed::TYPE => $fixed::of_row(row).map(Message::$fixed),)*
                    _ => Err(TYPE_UNKNOWN),
                }
            }
        }
    };
}

messages! {
    GpsTime
    Dops
    PosEcef
    PosLlh
    BaselineEcef
    BaselineNed
    VelEcef
    VelNed
    BaselineHeading
    BasePosLlh
    BasePosEcef
    EphemerisGps
    EphemerisSbas
    EphemerisGlo
    Iono
    SvConfigurationGps
    GroupDelay
    SettingsSave
    SettingsReadByIndexDone
    SettingsReadByIndexReq
    Startup
    Heartbeat
}

fn read_obs(payload: &[u8]) -> Result<Message<'_>, No> {
    let header = read_obs_header(payload)?;
    let mut observations = Vec::new();
    for index in 0..observation_count(payload)? {
        observations.push(observation(payload, index)?);
    }
    Ok(Message::Obs(header, observations))
}

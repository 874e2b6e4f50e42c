//! OBS: a header of 7 bytes and k observations of 16.

use super::group::group;
use super::Field;
use crate::frames::{self, Writer};
use crate::numbers::{No, LENGTH_WRONG, NO_SUCH_OBSERVATION, PAYLOAD_TOO_LONG};

pub const OBS_TYPE: u16 = 0x0049;
const MAX_OBSERVATIONS: usize = 15;
const HEADER: usize = 7;
const EACH: usize = 16;

group!(ObsHeader {
    tow: u32,
    wn: u16,
    n_obs: u8
});

impl ObsHeader {
    /// The size of the sequence: the upper four bits.
    pub fn n(&self) -> u8 {
        self.n_obs >> 4
    }

    /// The counter i: the lower four bits.
    pub fn counter(&self) -> u8 {
        self.n_obs & 15
    }
}

group!(
    /// 003's P is `p`, L.i is `l_i`, L.f is `l_f`, and sid's parts stand alone.
    Observation {
        p: u32,
        l_i: i32,
        l_f: u8,
        cn0: u8,
        lock: u16,
        sat: u16,
        code: u8,
        reserved: u8,
    }
);

const _: () = assert!(ObsHeader::SIZE == HEADER && Observation::SIZE == EACH);

/// Header and observations of their numbers: 22 for counts that are not a
/// header's and some observations', 23 where a field cannot hold its number.
pub fn obs_of_rows(head: &[u64], rows: &[u64]) -> Result<(ObsHeader, Vec<Observation>), No> {
    if !rows.len().is_multiple_of(Observation::NUMBERS) {
        return Err(LENGTH_WRONG);
    }
    let header = ObsHeader::of_row(head)?;
    let each = rows.chunks(Observation::NUMBERS);
    let observations: Result<_, No> = each.map(Observation::of_row).collect();
    Ok((header, observations?))
}

/// k of a payload of 16k + 7 bytes, k from 0 to 15; any other length is 22.
pub fn observation_count(payload: &[u8]) -> Result<usize, No> {
    for k in 0..=MAX_OBSERVATIONS {
        if payload.len() == EACH * k + HEADER {
            return Ok(k);
        }
    }
    Err(LENGTH_WRONG)
}

/// The header; n_obs takes any value here, only the collator judges it.
pub fn read_obs_header(payload: &[u8]) -> Result<ObsHeader, No> {
    observation_count(payload)?;
    Ok(ObsHeader::take(&mut &payload[..]))
}

/// The observation at `index`: 22, then 25.
pub fn observation(payload: &[u8], index: usize) -> Result<Observation, No> {
    let k = observation_count(payload)?;
    if index >= k {
        return Err(NO_SUCH_OBSERVATION);
    }
    Ok(Observation::take(&mut &payload[HEADER + EACH * index..]))
}

/// Writes header and observations as one frame: 31, then 32.
pub fn write_obs(
    header: &ObsHeader,
    observations: &[Observation],
    writer: Writer,
    out: &mut [u8],
) -> Result<usize, No> {
    if observations.len() > MAX_OBSERVATIONS {
        return Err(PAYLOAD_TOO_LONG);
    }
    let mut payload = Vec::new();
    header.put(&mut payload);
    observations.iter().for_each(|each| each.put(&mut payload));
    frames::write(OBS_TYPE, writer, &payload, out)
}

/// Steps through a payload's observations.
#[derive(Clone, Copy, Debug, PartialEq, Eq)]
pub struct ObsReader<'a> {
    payload: &'a [u8],
    index: usize,
}

impl<'a> ObsReader<'a> {
    pub fn new(payload: &'a [u8]) -> ObsReader<'a> {
        ObsReader { payload, index: 0 }
    }

    pub fn index(&self) -> usize {
        self.index
    }

    /// The next observation; past the last it answers 25 and stays.
    pub fn step(&mut self) -> Result<Observation, No> {
        let found = observation(self.payload, self.index)?;
        self.index += 1;
        Ok(found)
    }
}

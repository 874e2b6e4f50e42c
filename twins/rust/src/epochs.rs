//! Document 01's "Epochs" as request P7 has them: a collator for a roster of up
//! to 8 senders, whose packets may come in any order.

use crate::messages::{observation_count, read_obs_header, OBS_TYPE};
use crate::numbers::{
    No, COUNTER_AGAIN, COUNTER_NOT_BELOW_N, NOT_OBS, NOT_ON_ROSTER, N_IS_ZERO, ROSTER_SIZE,
    ROSTER_TWICE,
};

pub const MAX_ROSTER: usize = 8;
/// n is four bits.
const MAX_PACKETS: usize = 15;

/// A whole epoch, reported when the last of its frames to come is fed.
#[derive(Clone, Copy, Debug, PartialEq, Eq)]
pub struct Epoch {
    pub sender: u16,
    pub wn: u16,
    pub tow: u32,
    pub n: u8,
    /// The sum of k over its frames.
    pub observations: usize,
}

/// What the packets of an epoch share.
#[derive(Clone, Copy, Debug, PartialEq, Eq)]
struct Key {
    tow: u32,
    wn: u16,
    n: u8,
}

/// An epoch of which some packets have come, and some have not.
#[derive(Clone, Copy, Debug, PartialEq, Eq)]
struct Open {
    key: Key,
    /// By counter, how many observations came; None where no packet has come.
    come: [Option<usize>; MAX_PACKETS],
}

#[derive(Clone, Debug, PartialEq, Eq)]
pub struct Collator {
    /// Each listed sender with its place, which is idle or has an open epoch.
    listed: Vec<(u16, Option<Open>)>,
}

#[derive(Clone, Copy, Debug, PartialEq, Eq)]
pub enum Outcome {
    Refused(No),
    Taken,
    Epoch(Epoch),
}

/// The collator comes back with what happened.
#[derive(Clone, Debug, PartialEq, Eq)]
pub struct Fed {
    pub collator: Collator,
    pub outcome: Outcome,
}

impl Collator {
    /// 41, then 42.
    pub fn new(roster: &[u16]) -> Result<Collator, No> {
        if roster.is_empty() || roster.len() > MAX_ROSTER {
            return Err(ROSTER_SIZE);
        }
        for (at, sender) in roster.iter().enumerate() {
            if roster[..at].contains(sender) {
                return Err(ROSTER_TWICE);
            }
        }
        Ok(Collator {
            listed: roster.iter().map(|&sender| (sender, None)).collect(),
        })
    }

    /// One that lists nobody yet, for `enlist`.
    pub fn growing() -> Collator {
        Collator { listed: Vec::new() }
    }

    /// Before a frame is fed: the sender of an OBS frame, malformed ones too,
    /// is listed where it is not and a seat is free.
    pub fn enlist(mut self, msg_type: u16, sender: u16) -> Collator {
        let known = self.listed.iter().any(|&(listed, _)| listed == sender);
        if msg_type == OBS_TYPE && !known && self.listed.len() < MAX_ROSTER {
            self.listed.push((sender, None));
        }
        self
    }

    pub fn feed(mut self, msg_type: u16, sender: u16, payload: &[u8]) -> Fed {
        let outcome = match self.try_feed(msg_type, sender, payload) {
            Ok(None) => Outcome::Taken,
            Ok(Some(epoch)) => Outcome::Epoch(epoch),
            Err(no) => Outcome::Refused(no),
        };
        Fed {
            collator: self,
            outcome,
        }
    }

    /// 46, 22, 43, 44, 45, 47 in that order, before anything changes: a refused
    /// frame is neither added nor drops what is open.
    fn try_feed(
        &mut self,
        msg_type: u16,
        sender: u16,
        payload: &[u8],
    ) -> Result<Option<Epoch>, No> {
        if msg_type != OBS_TYPE {
            return Err(NOT_OBS);
        }
        let header = read_obs_header(payload)?;
        let k = observation_count(payload)?;
        let listed = self.listed.iter_mut().find(|(known, _)| *known == sender);
        let (_, place) = listed.ok_or(NOT_ON_ROSTER)?;
        let (n, counter) = (header.n(), header.counter());
        if n == 0 {
            return Err(N_IS_ZERO);
        }
        if counter >= n {
            return Err(COUNTER_NOT_BELOW_N);
        }

        let (tow, wn) = (header.tow, header.wn);
        let key = Key { tow, wn, n };
        // An epoch of another key is dropped.
        let continued = place.filter(|open| open.key == key);
        let mut open = continued.unwrap_or(Open::of(key));
        let came = &mut open.come[usize::from(counter)];
        if came.is_some() {
            return Err(COUNTER_AGAIN);
        }
        *came = Some(k);
        let Some(observations) = open.observations() else {
            *place = Some(open);
            return Ok(None);
        };
        *place = None;
        Ok(Some(Epoch {
            sender,
            wn,
            tow,
            n,
            observations,
        }))
    }
}

impl Open {
    fn of(key: Key) -> Open {
        Open {
            key,
            come: [None; MAX_PACKETS],
        }
    }

    /// How many there are in all, once all n packets have come.
    fn observations(&self) -> Option<usize> {
        let come = self.come.iter().take(self.key.n.into());
        come.copied().sum()
    }
}

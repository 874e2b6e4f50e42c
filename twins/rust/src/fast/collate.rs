//! The collator, for a roster that is given, and for a listing, where the
//! roster grows as OBS senders appear: the same eight as a first pass gives.

use super::answer::obs_length;

/// `missing` is how many of the open epoch's n packets have not come; 0 is idle.
#[derive(Clone, Copy, Default)]
struct Place {
    tow: u32,
    wn: u16,
    n: u8,
    missing: u8,
    observations: u8,
    /// By counter.
    come: [bool; 16],
}

pub struct Collator {
    senders: [u16; 8],
    places: [Place; 8],
    listed: usize,
}

#[derive(Clone, Copy, Debug, PartialEq, Eq)]
pub struct Epoch {
    pub sender: u16,
    pub wn: u16,
    pub tow: u32,
    pub n: u8,
    pub observations: u8,
}

impl Collator {
    /// 41, then 42.
    pub fn new(roster: &[u16]) -> Result<Collator, u8> {
        let mut made = Collator::growing();
        made.listed = roster.len();
        match made.senders.get_mut(..roster.len()) {
            Some(senders) if !roster.is_empty() => senders.copy_from_slice(roster),
            _ => return Err(41),
        }
        let twice = |at: usize| roster[..at].contains(&roster[at]);
        if (0..roster.len()).any(twice) {
            return Err(42);
        }
        Ok(made)
    }

    /// With nobody listed yet.
    pub(super) fn growing() -> Collator {
        Collator {
            senders: [0; 8],
            places: [Place::default(); 8],
            listed: 0,
        }
    }

    /// An epoch if the frame ends one; or 46, 22, 43, 44, 45, 47 in that order,
    /// with nothing changed.
    #[inline]
    pub fn feed(
        &mut self,
        msg_type: u16,
        sender: u16,
        payload: &[u8],
    ) -> Result<Option<Epoch>, u8> {
        if msg_type != 0x0049 {
            return Err(46);
        }
        if !obs_length(payload.len()) {
            return Err(22);
        }
        let at = self.known(sender).ok_or(43)?;
        self.step(at, sender, payload)
    }

    /// Feeds a frame of type OBS, malformed or not, of a listing.
    #[inline]
    pub(super) fn feed_listing(&mut self, sender: u16, payload: &[u8]) -> Option<Epoch> {
        let at = self.known(sender).or_else(|| self.enlist(sender))?;
        if !obs_length(payload.len()) {
            return None;
        }
        self.step(at, sender, payload).ok().flatten()
    }

    #[inline]
    fn known(&self, sender: u16) -> Option<usize> {
        let mut known = self.senders.iter().take(self.listed);
        known.position(|&s| s == sender)
    }

    /// A new sender is listed while there is room.
    fn enlist(&mut self, sender: u16) -> Option<usize> {
        let at = self.listed;
        *self.senders.get_mut(at)? = sender;
        self.listed += 1;
        Some(at)
    }

    /// A payload of a right length, of the sender listed at `at`.
    #[inline]
    fn step(&mut self, at: usize, sender: u16, payload: &[u8]) -> Result<Option<Epoch>, u8> {
        let &[t0, t1, t2, t3, w0, w1, n_obs] = payload.first_chunk::<7>().ok_or(22)?;
        let (n, i) = (n_obs >> 4, n_obs & 15);
        if i >= n {
            return Err(if n == 0 { 44 } else { 45 });
        }
        let tow = u32::from_le_bytes([t0, t1, t2, t3]);
        let wn = u16::from_le_bytes([w0, w1]);
        let k = (payload.len() >> 4) as u8;
        let place = &mut self.places[at];
        if place.missing == 0 || place.tow != tow || place.wn != wn || place.n != n {
            // What was open is dropped.
            *place = Place {
                tow,
                wn,
                n,
                missing: n,
                ..Place::default()
            };
        }
        let come = &mut place.come[usize::from(i)];
        if *come {
            return Err(47);
        }
        *come = true;
        place.missing -= 1;
        place.observations += k;
        if place.missing != 0 {
            return Ok(None);
        }
        Ok(Some(Epoch {
            sender,
            wn,
            tow,
            n,
            observations: place.observations,
        }))
    }
}

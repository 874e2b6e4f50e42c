//! Collators with a slip in each: the generated captures have to show it.

use std::collections::BTreeMap;

use twin::frames::{closed, Frame};
use twin::gen::capture;
use twin::listing::{listing, roster};

const CAPTURES: u64 = 400;
/// In so many of them each slip has to show.
const LEAST: usize = 5;

#[derive(Clone, Copy, Debug, PartialEq, Eq)]
enum Slip {
    None,
    /// As before P7: in counter order alone, and 0 begins anew.
    CounterOrder,
    /// n packets of a key are an epoch, whatever their counters.
    PacketsCounted,
    /// The last counter ends an epoch.
    LastEnds,
    /// A copy drops what is open, begins it anew, or is counted once more.
    CopyDrops,
    CopyBegins,
    CopyCounted,
    /// A packet of another key is passed over while something is open.
    OtherPassed,
    /// What had come, or how much, counts for another key too.
    CountersKept,
    SumKept,
    /// After the report what has come again is a copy.
    NotIdle,
    /// A bit for each of 8 counters.
    EightBits,
    TimeIgnored,
    WeekIgnored,
    NIgnored,
    /// One place for all senders.
    SendersMixed,
    /// A malformed packet drops what is open.
    RefusedDrops,
}

const SLIPS: [Slip; 16] = [
    Slip::CounterOrder,
    Slip::PacketsCounted,
    Slip::LastEnds,
    Slip::CopyDrops,
    Slip::CopyBegins,
    Slip::CopyCounted,
    Slip::OtherPassed,
    Slip::CountersKept,
    Slip::SumKept,
    Slip::NotIdle,
    Slip::EightBits,
    Slip::TimeIgnored,
    Slip::WeekIgnored,
    Slip::NIgnored,
    Slip::SendersMixed,
    Slip::RefusedDrops,
];

type Key = (u32, u16, u8);

/// Idle where no counter has come.
#[derive(Clone, Copy, Default)]
struct Place {
    key: Key,
    come: u16,
    packets: u8,
    sum: usize,
}

impl Place {
    fn of(key: Key) -> Place {
        Place {
            key,
            ..Place::default()
        }
    }

    fn is_open(&self, slip: Slip, (tow, wn, n): Key) -> bool {
        let key = match slip {
            Slip::TimeIgnored => (self.key.0, wn, n),
            Slip::WeekIgnored => (tow, self.key.1, n),
            Slip::NIgnored => (tow, wn, self.key.2),
            _ => (tow, wn, n),
        };
        self.come != 0 && self.key == key
    }

    /// The observations, if a well-formed packet ends an epoch.
    fn feed(&mut self, slip: Slip, key: Key, i: u8, k: usize) -> Option<usize> {
        let n = key.2;
        let bit = 1_u16 << if slip == Slip::EightBits { i % 8 } else { i };
        let open = self.is_open(slip, key);
        if slip == Slip::CounterOrder && (!open || self.packets != i) {
            *self = Place::of(key);
            if i > 0 {
                return None;
            }
        } else if open && self.come & bit != 0 {
            match slip {
                Slip::CopyDrops => *self = Place::default(),
                Slip::CopyCounted => self.sum += k,
                _ => {}
            }
            match slip {
                Slip::CopyBegins => *self = Place::of(key),
                Slip::PacketsCounted => {}
                _ => return None,
            }
        } else if !open {
            let before = *self;
            if slip == Slip::OtherPassed && before.come != 0 {
                return None;
            }
            *self = Place::of(key);
            match slip {
                Slip::CountersKept => self.come = before.come,
                Slip::SumKept => self.sum = before.sum,
                _ => {}
            }
        }
        self.come |= bit;
        self.packets += 1;
        self.sum += k;
        let whole = match slip {
            Slip::PacketsCounted => self.packets == n,
            Slip::LastEnds => i + 1 == n,
            _ => self.come == (1 << n) - 1,
        };
        let sum = self.sum;
        if whole && slip != Slip::NotIdle {
            *self = Place::default();
        }
        whole.then_some(sum)
    }
}

/// The E lines of a listing.
fn epochs(slip: Slip, frames: &[Frame]) -> Vec<String> {
    let listed = roster(frames);
    let mut places: BTreeMap<u16, Place> = BTreeMap::new();
    let mut lines = Vec::new();
    for frame in frames {
        let sender = frame.sender;
        if frame.msg_type != 0x0049 || !listed.contains(&sender) {
            continue;
        }
        let mixed = slip == Slip::SendersMixed;
        let place = places.entry(if mixed { 0 } else { sender }).or_default();
        let Some((key, i, k)) = well_formed(frame.payload) else {
            if slip == Slip::RefusedDrops {
                *place = Place::default();
            }
            continue;
        };
        if let Some(sum) = place.feed(slip, key, i, k) {
            let (tow, wn, n) = key;
            lines.push(format!("E {sender} {wn} {tow} {n} {sum}"));
        }
    }
    lines
}

/// Key, counter and k.
fn well_formed(payload: &[u8]) -> Option<(Key, u8, usize)> {
    let &[t0, t1, t2, t3, w0, w1, n_obs] = payload.first_chunk::<7>()?;
    let (n, i) = (n_obs >> 4, n_obs & 15);
    let right = payload.len() % 16 == 7 && payload.len() <= 247 && i < n;
    let tow = u32::from_le_bytes([t0, t1, t2, t3]);
    let wn = u16::from_le_bytes([w0, w1]);
    right.then_some(((tow, wn, n), i, payload.len() / 16))
}

/// In how many captures a slip shows.
fn shown(slip: Slip) -> usize {
    let shows = |seed: &u64| {
        let capture = capture(*seed);
        let text = listing(&capture);
        if text.starts_with('R') {
            return false;
        }
        let right: Vec<_> = text.lines().filter(|l| l.starts_with('E')).collect();
        epochs(slip, &closed(&capture).frames) != right
    };
    (1..=CAPTURES).filter(shows).count()
}

#[test]
fn without_a_slip_nothing_shows() {
    assert_eq!(shown(Slip::None), 0);
}

#[test]
fn every_slip_shows() {
    for slip in SLIPS {
        let times = shown(slip);
        println!("{slip:?}: {times} of {CAPTURES}");
        assert!(times >= LEAST, "{slip:?}");
    }
}

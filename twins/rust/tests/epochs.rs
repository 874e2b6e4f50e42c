//! The collator, and the fast one beside it.

use twin::epochs::{Collator, Epoch, Outcome};
use twin::fast;

const TAKEN: Outcome = Outcome::Taken;
const COPY: Outcome = Outcome::Refused(47);

/// Type, sender and payload.
type Frame = (u16, u16, Vec<u8>);

/// An OBS of wn 7.
fn packet(sender: u16, tow: u32, n_obs: u8, k: usize) -> Frame {
    let mut payload = tow.to_le_bytes().to_vec();
    payload.extend_from_slice(&[7, 0, n_obs]);
    payload.resize(7 + 16 * k, 0);
    (0x0049, sender, payload)
}

fn epoch(sender: u16, tow: u32, n: u8, observations: usize) -> Outcome {
    Outcome::Epoch(Epoch {
        sender,
        wn: 7,
        tow,
        n,
        observations,
    })
}

fn of_fast(fed: Result<Option<fast::Epoch>, u8>) -> Outcome {
    match fed {
        Err(no) => Outcome::Refused(no),
        Ok(None) => Outcome::Taken,
        Ok(Some(e)) => Outcome::Epoch(Epoch {
            sender: e.sender,
            wn: e.wn,
            tow: e.tow,
            n: e.n,
            observations: e.observations.into(),
        }),
    }
}

/// Feeds frames to a roster of 0, 65535 and 5; what is refused changes nothing.
fn feed_all(frames: &[Frame]) -> Vec<Outcome> {
    let roster = [0, 65535, 5];
    let mut collator = Collator::new(&roster).unwrap();
    let mut fast = fast::Collator::new(&roster).unwrap();
    let mut outcomes = Vec::new();
    for (msg_type, sender, payload) in frames {
        let fed = collator.clone().feed(*msg_type, *sender, payload);
        if let Outcome::Refused(_) = fed.outcome {
            assert_eq!(fed.collator, collator);
        }
        assert_eq!(of_fast(fast.feed(*msg_type, *sender, payload)), fed.outcome);
        collator = fed.collator;
        outcomes.push(fed.outcome);
    }
    outcomes
}

/// All orders of the counters 0 .. n - 1.
fn orders(n: u8) -> Vec<Vec<u8>> {
    let mut all = vec![Vec::new()];
    for counter in 0..n {
        all = all
            .iter()
            .flat_map(|order| (0..=order.len()).map(move |at| with(order, at, counter)))
            .collect();
    }
    all
}

fn with<T: Clone>(all: &[T], at: usize, more: T) -> Vec<T> {
    [&all[..at], &[more], &all[at..]].concat()
}

/// The packets of an epoch of sender 5, in an order; counter i has i + 1
/// observations. With them what they are answered.
fn whole(order: &[u8]) -> (Vec<Frame>, Vec<Outcome>) {
    let n = order.len() as u8;
    let packet_of = |&i: &u8| packet(5, 1, n << 4 | i, usize::from(i) + 1);
    let mut outcomes = vec![TAKEN; order.len() - 1];
    outcomes.push(epoch(5, 1, n, order.len() * (order.len() + 1) / 2));
    (order.iter().map(packet_of).collect(), outcomes)
}

#[test]
fn rosters() {
    assert_eq!(Collator::new(&[]), Err(41));
    assert_eq!(Collator::new(&[1; 9]), Err(41));
    assert_eq!(Collator::new(&[1, 2, 3, 4, 5, 6, 7, 1]), Err(42));
    assert_eq!(Collator::new(&[0, 0]), Err(42));
    assert!(Collator::new(&[0, 1, 2, 3, 4, 5, 6, 65535]).is_ok());
}

#[test]
fn every_order() {
    for n in 1..=4 {
        for order in orders(n) {
            let (packets, outcomes) = whole(&order);
            assert_eq!(feed_all(&packets), outcomes, "{order:?}");
        }
    }
}

#[test]
fn the_longest_epoch_backwards() {
    let packets: Vec<_> = (0..15).rev().map(|i| packet(0, 9, 0xF0 | i, 15)).collect();
    let mut outcomes = vec![TAKEN; 14];
    outcomes.push(epoch(0, 9, 15, 225));
    assert_eq!(feed_all(&packets), outcomes);
}

/// Of each packet, with other observations, in each place before the report.
#[test]
fn a_copy_is_refused() {
    for n in 2..=4 {
        for order in orders(n) {
            let (packets, outcomes) = whole(&order);
            for (first, &counter) in order.iter().enumerate() {
                let copy = packet(5, 1, n << 4 | counter, 15);
                for at in first + 1..order.len() {
                    let got = feed_all(&with(&packets, at, copy.clone()));
                    assert_eq!(got, with(&outcomes, at, COPY), "{order:?}");
                }
            }
        }
    }
}

/// After the report a copy opens an epoch, which the other packets end.
#[test]
fn a_copy_after_the_report() {
    for n in 2..=4 {
        for order in orders(n) {
            let (mut packets, mut outcomes) = whole(&order);
            packets.extend(whole(&order).0);
            outcomes.extend(whole(&order).1);
            assert_eq!(feed_all(&packets), outcomes, "{order:?}");
        }
    }
    // Or the next epoch drops it.
    let got = feed_all(&[
        packet(5, 1, 0x21, 1),
        packet(5, 1, 0x20, 1),
        packet(5, 1, 0x21, 1),
        packet(5, 2, 0x20, 0),
        packet(5, 2, 0x21, 0),
    ]);
    let outcomes = [TAKEN, epoch(5, 1, 2, 2), TAKEN, TAKEN, epoch(5, 2, 2, 0)];
    assert_eq!(got, outcomes);
}

/// A packet of another tow, wn or n drops the two that had come, and the one
/// that was missing opens an epoch.
#[test]
fn another_key_and_back() {
    for field in 0..7 {
        let mut other = packet(5, 1, 0x30, 0);
        other.2[field] ^= if field < 6 { 0x80 } else { 0x70 };
        let got = feed_all(&[
            packet(5, 1, 0x30, 1),
            packet(5, 1, 0x32, 1),
            other,
            packet(5, 1, 0x31, 1),
            packet(5, 1, 0x32, 2),
            packet(5, 1, 0x30, 4),
        ]);
        let mut outcomes = vec![TAKEN; 5];
        outcomes.push(epoch(5, 1, 3, 7));
        assert_eq!(got, outcomes, "field {field}");
    }
    // Nor does what had come count for the other key.
    let got = feed_all(&[
        packet(5, 1, 0x20, 0),
        packet(5, 2, 0x21, 0),
        packet(5, 1, 0x21, 0),
    ]);
    assert_eq!(got, [TAKEN; 3]);
}

/// Each time; they drop what is open too.
#[test]
fn epochs_of_one_packet() {
    let got = feed_all(&[
        packet(5, 1, 0x20, 0),
        packet(5, 1, 0x10, 1),
        packet(5, 1, 0x10, 1),
        packet(5, 1, 0x21, 0),
    ]);
    assert_eq!(got, [TAKEN, epoch(5, 1, 1, 1), epoch(5, 1, 1, 1), TAKEN]);
}

/// Packets of one time, in every way that two senders can take turns.
#[test]
fn two_senders_by_turns() {
    let of_0 = [packet(0, 1, 0x21, 3), packet(0, 1, 0x20, 4)];
    let of_65535 = [2, 0, 1].map(|i| packet(65535, 1, 0x30 | i, 1));
    let turns = (0..32_u8).filter(|turns| turns.count_ones() == 2);
    for turns in turns {
        let (mut left, mut others) = (of_0.iter(), of_65535.iter());
        let next = |at: u8| match turns >> at & 1 {
            1 => left.next().cloned(),
            _ => others.next().cloned(),
        };
        let packets: Vec<_> = (0..5).filter_map(next).collect();
        let mut reported = feed_all(&packets);
        reported.retain(|outcome| *outcome != TAKEN);
        let mut expected = [epoch(0, 1, 2, 7), epoch(65535, 1, 3, 3)];
        // The last packet of all is bit 4's.
        if turns >> 4 == 1 {
            expected.reverse();
        }
        assert_eq!(reported, expected, "{turns:05b}");
    }
}

/// Each with all faults that come after it, between any two packets.
#[test]
fn refusals_in_their_order() {
    let mut frames = Vec::new();
    let mut outcomes = Vec::new();
    for (i, outcome) in [(2, TAKEN), (0, TAKEN), (1, epoch(5, 1, 3, 3))] {
        for (msg_type, sender, payload, no) in [
            (0x0048, 6, vec![0; 6], 46),
            (0x0049, 6, vec![0; 6], 22),
            (0x0049, 6, vec![0; 7], 43),
            (0x0049, 5, packet(5, 1, 0x02, 0).2, 44),
            (0x0049, 5, packet(5, 1, 0x33, 0).2, 45),
        ] {
            frames.push((msg_type, sender, payload));
            outcomes.push(Outcome::Refused(no));
        }
        frames.push(packet(5, 1, 0x30 | i, 1));
        outcomes.push(outcome);
        if outcome == TAKEN {
            frames.push(packet(5, 1, 0x30 | i, 15));
            outcomes.push(COPY);
        }
    }
    assert_eq!(feed_all(&frames), outcomes);
}

//! Epochs: the sample's, packets in every order, copies, refusals in their
//! order, senders kept apart.

#[macro_use]
mod common;

use std::collections::VecDeque;

use common::sample;
use yaqtumeer::*;

/// A packet's payload with so many observations.
fn packet(tow: u32, wn: u16, n_obs: u8, k: usize) -> Vec<u8> {
    let head = [&tow.to_le_bytes()[..], &wn.to_le_bytes(), &[n_obs]].concat();
    [head, vec![0; 16 * k]].concat()
}

fn feed(collator: &mut Collator, sender: u16, n_obs: u8) -> Result<Option<u16>, Refusal> {
    let told = collator.feed_content(Obs::KIND, sender, &packet(1, 2, n_obs, 0));
    told.map(|ended| ended.map(|epoch| epoch.sender))
}

#[test]
fn an_epoch_field_by_field() {
    let mut collator = Collator::new(&[0xa2a1]).unwrap();
    for i in 0..14 {
        let payload = packet(0xb4b3b2b1, 0xc2c1, 0xf0 + i, 15);
        let told = collator.feed_content(0x0049, 0xa2a1, &payload);
        same!(format!("packet {i}"), told, Ok(None));
    }
    let last = packet(0xb4b3b2b1, 0xc2c1, 0xfe, 15);
    let epoch = collator
        .feed_content(0x0049, 0xa2a1, &last)
        .unwrap()
        .unwrap();
    same!("sender", epoch.sender, 0xa2a1);
    same!("wn", epoch.wn, 0xc2c1);
    same!("tow", epoch.tow, 0xb4b3b2b1);
    same!("n", epoch.n, 15);
    same!("observations", epoch.observations, 225);
}

fn epochs(mut collator: Collator, capture: &[u8]) -> Vec<Epoch> {
    let fed = Frames::closed(capture).map(|frame| collator.feed(&frame));
    fed.filter_map(|told| told.ok().flatten()).collect()
}

#[test]
fn the_sample() {
    let capture = sample();
    let seen = epochs(Collator::growing(), &capture);
    let mut expected = vec![];
    for k in 0..12 {
        let (wn, tow) = (1900, 416300000 + 1000 * k);
        expected.push(Epoch {
            sender: 0,
            wn,
            tow,
            n: 2,
            observations: 10,
        });
        expected.push(Epoch {
            sender: 1228,
            wn,
            tow,
            n: 3,
            observations: 12,
        });
    }
    same!("epochs", seen, expected);
    same!(
        "of a roster",
        epochs(Collator::new(&[0, 1228]).unwrap(), &capture),
        expected
    );
    let rover = epochs(Collator::new(&[0]).unwrap(), &capture);
    same!("of the rover alone", rover.len(), 12);
    same!(
        "of the rover alone",
        rover.iter().all(|epoch| epoch.sender == 0),
        true
    );
}

#[test]
fn rosters() {
    let told = |roster: &[u16]| Collator::new(roster).map(|_| ());
    same!("none", told(&[]), Err(Refusal::WrongRoster));
    same!("eight", told(&[1, 2, 3, 4, 5, 6, 7, 0]), Ok(()));
    same!(
        "nine",
        told(&[1, 2, 3, 4, 5, 6, 7, 8, 9]),
        Err(Refusal::WrongRoster)
    );
    same!("nine, one twice", told(&[1; 9]), Err(Refusal::WrongRoster));
    same!(
        "one twice",
        told(&[1, 0, 65535, 1]),
        Err(Refusal::SenderTwice)
    );
}

#[test]
fn refusals_in_their_order() {
    let mut collator = Collator::new(&[7]).unwrap();
    let mut told = |kind, sender, payload: &[u8]| collator.feed_content(kind, sender, payload);
    same!("not OBS", told(0x0048, 8, &[0; 6]), Err(Refusal::NotObs));
    same!(
        "length",
        told(0x0049, 8, &[0; 6]),
        Err(Refusal::WrongLength)
    );
    same!(
        "not listed",
        told(0x0049, 8, &[0; 7]),
        Err(Refusal::NotListed)
    );
    same!(
        "no packets",
        told(0x0049, 7, &[0; 7]),
        Err(Refusal::NoPackets)
    );
    let beyond = packet(1, 2, 0x33, 0);
    same!(
        "counter",
        told(0x0049, 7, &beyond),
        Err(Refusal::WrongCounter)
    );
    let first = packet(1, 2, 0x30, 0);
    let longer = [&first[..], &[0]].concat();
    same!("first", told(0x0049, 7, &first), Ok(None));
    same!(
        "a copy of another type",
        told(0x004a, 7, &first),
        Err(Refusal::NotObs)
    );
    same!(
        "a longer copy",
        told(0x0049, 7, &longer),
        Err(Refusal::WrongLength)
    );
    same!(
        "another's copy",
        told(0x0049, 8, &first),
        Err(Refusal::NotListed)
    );
    same!("copy", told(0x0049, 7, &first), Err(Refusal::CounterTwice));
}

#[test]
fn a_refusal_drops_no_epoch() {
    let mut collator = Collator::new(&[7]).unwrap();
    same!("first", feed(&mut collator, 7, 0x20), Ok(None));
    let other_type = collator.feed_content(0x004a, 7, &packet(1, 3, 0x20, 0));
    same!("not OBS", other_type, Err(Refusal::NotObs));
    let longer = collator.feed_content(Obs::KIND, 7, &[0; 8]);
    same!("length", longer, Err(Refusal::WrongLength));
    same!(
        "another's",
        feed(&mut collator, 8, 0x20),
        Err(Refusal::NotListed)
    );
    same!(
        "no packets",
        feed(&mut collator, 7, 0x01),
        Err(Refusal::NoPackets)
    );
    same!(
        "counter",
        feed(&mut collator, 7, 0x22),
        Err(Refusal::WrongCounter)
    );
    same!(
        "copy",
        feed(&mut collator, 7, 0x20),
        Err(Refusal::CounterTwice)
    );
    same!("last", feed(&mut collator, 7, 0x21), Ok(Some(7)));
}

/// The counters of n packets in every order.
fn orders(n: u8) -> Vec<Vec<u8>> {
    let mut orders = vec![vec![]];
    for i in 0..n {
        let longer = orders.into_iter().flat_map(|order: Vec<u8>| {
            (0..=order.len()).map(move |at| [&order[..at], &[i], &order[at..]].concat())
        });
        orders = longer.collect();
    }
    orders
}

/// A packet of 7 with so many observations, and those of the epoch that it ends.
fn feed_counted(collator: &mut Collator, n: u8, i: u8, k: usize) -> Result<Option<u16>, Refusal> {
    let told = collator.feed_content(Obs::KIND, 7, &packet(1, 2, 16 * n + i, k));
    told.map(|ended| ended.map(|epoch| epoch.observations))
}

/// Packet i has 2^i observations, so that each of them is seen in the sum. One
/// epoch comes after the other in the same place.
#[test]
fn every_order() {
    let mut collator = Collator::new(&[7]).unwrap();
    for n in 1..=4 {
        for order in orders(n) {
            for (place, &i) in order.iter().enumerate() {
                let told = feed_counted(&mut collator, n, i, 1 << i);
                let ends = place + 1 == order.len();
                let expected = ends.then_some((1 << n) - 1);
                same!(format!("packet {i} of {order:?}"), told, Ok(expected));
            }
        }
    }
}

/// Before each packet come copies of all before it, with more observations.
#[test]
fn a_copy_does_not_count() {
    let mut collator = Collator::new(&[7]).unwrap();
    for n in 1..=4 {
        for order in orders(n) {
            for (place, &i) in order.iter().enumerate() {
                for &j in &order[..place] {
                    let told = feed_counted(&mut collator, n, j, 15);
                    let what = format!("a copy of {j} before {i} of {order:?}");
                    same!(what, told, Err(Refusal::CounterTwice));
                }
                let told = feed_counted(&mut collator, n, i, 1 << i);
                let ends = place + 1 == order.len();
                let expected = ends.then_some((1 << n) - 1);
                same!(format!("packet {i} of {order:?}"), told, Ok(expected));
            }
        }
    }
}

#[test]
fn a_copy_after_its_epoch_opens_one() {
    let mut collator = Collator::new(&[7]).unwrap();
    same!("first", feed(&mut collator, 7, 0x20), Ok(None));
    same!("last", feed(&mut collator, 7, 0x21), Ok(Some(7)));
    same!("late", feed(&mut collator, 7, 0x21), Ok(None));
    same!(
        "late again",
        feed(&mut collator, 7, 0x21),
        Err(Refusal::CounterTwice)
    );
    same!("first", feed(&mut collator, 7, 0x20), Ok(Some(7)));
    for _ in 0..2 {
        same!("one alone", feed(&mut collator, 7, 0x10), Ok(Some(7)));
    }
}

/// Another time, week or number of packets, and back.
#[test]
fn another_epoch_drops_the_open_one() {
    let mut collator = Collator::new(&[7]).unwrap();
    let mut told = |tow, wn, n_obs| {
        let told = collator.feed_content(Obs::KIND, 7, &packet(tow, wn, n_obs, 0));
        told.map(|ended| ended.map(|epoch| epoch.n))
    };
    for (tow, wn, n_obs, ended) in [
        (2, 2, 0x20, None),
        (1, 3, 0x20, None),
        (1, 2, 0x30, None),
        (1, 2, 0x10, Some(1)),
    ] {
        let what = format!("of {tow}, {wn}, {n_obs:#x}");
        same!(what, told(1, 2, 0x20), Ok(None));
        same!(what, told(tow, wn, n_obs), Ok(ended));
        same!(what, told(1, 2, 0x21), Ok(None));
        same!(what, told(1, 2, 0x20), Ok(Some(2)));
    }
}

#[test]
fn fifteen_backwards() {
    let mut collator = Collator::new(&[7]).unwrap();
    for i in (0..15).rev() {
        let told = feed_counted(&mut collator, 15, i, 15);
        let expected = (i == 0).then_some(225);
        same!(format!("packet {i}"), told, Ok(expected));
    }
}

/// 400 epochs of a base, and of the rover that it relays as sender 0: even
/// counters go through one queue, odd ones through another, and the bits of the
/// time say from which of them the next packet comes.
#[test]
fn two_queues() {
    let mut collator = Collator::new(&[1228, 0]).unwrap();
    let mut ended = vec![];
    for tow in 0..400 {
        let even = [(1228, 0x30), (0, 0x20), (1228, 0x32)];
        let odd = [(1228, 0x31), (0, 0x21)];
        let mut queues = [VecDeque::from(even), VecDeque::from(odd)];
        for bit in 0..even.len() + odd.len() {
            let turn = (tow >> bit & 1) as usize;
            let next = queues[turn].pop_front();
            let (sender, n_obs) = next.or_else(|| queues[1 - turn].pop_front()).unwrap();
            let told = collator.feed_content(Obs::KIND, sender, &packet(tow, 1900, n_obs, 0));
            ended.extend(told.unwrap());
        }
    }
    for sender in [1228, 0] {
        let own = ended.iter().filter(|epoch| epoch.sender == sender);
        let tows: Vec<u32> = own.map(|epoch| epoch.tow).collect();
        same!(format!("epochs of {sender}"), tows, Vec::from_iter(0..400));
    }
}

#[test]
fn senders_don_t_mix() {
    let mut collator = Collator::new(&[0, 7]).unwrap();
    same!("first of 0", feed(&mut collator, 0, 0x30), Ok(None));
    same!("last of 7", feed(&mut collator, 7, 0x32), Ok(None));
    same!("second of 7", feed(&mut collator, 7, 0x31), Ok(None));
    same!("last of 0", feed(&mut collator, 0, 0x32), Ok(None));
    same!("second of 0", feed(&mut collator, 0, 0x31), Ok(Some(0)));
    same!("first of 7", feed(&mut collator, 7, 0x30), Ok(Some(7)));
}

#[test]
fn a_growing_roster_takes_the_first_eight() {
    let mut collator = Collator::growing();
    let beat = collator.feed_content(Heartbeat::KIND, 99, &[0; 4]);
    same!("no seat for another type", beat, Err(Refusal::NotObs));
    for sender in [5, 0, 65535, 1228, 1, 2, 3] {
        same!(
            format!("sender {sender}"),
            feed(&mut collator, sender, 0x20),
            Ok(None)
        );
    }
    // a malformed one takes a seat too
    let malformed = collator.feed_content(Obs::KIND, 4, &[0; 6]);
    same!("malformed", malformed, Err(Refusal::WrongLength));
    same!(
        "the ninth",
        feed(&mut collator, 99, 0x10),
        Err(Refusal::NotListed)
    );
    same!("the eighth", feed(&mut collator, 4, 0x10), Ok(Some(4)));
    for sender in [5, 0, 65535, 1228, 1, 2, 3] {
        same!(
            format!("sender {sender}"),
            feed(&mut collator, sender, 0x21),
            Ok(Some(sender))
        );
    }
}

#[test]
fn a_fixed_roster_does_not_grow() {
    let mut collator = Collator::new(&[7]).unwrap();
    for _ in 0..2 {
        same!(
            "another",
            feed(&mut collator, 8, 0x10),
            Err(Refusal::NotListed)
        );
    }
}

#[test]
fn a_clone_goes_its_own_way() {
    let mut one = Collator::growing();
    same!("first", feed(&mut one, 7, 0x20), Ok(None));
    let mut two = one.clone();
    same!(
        "the clone's copy",
        feed(&mut two, 7, 0x20),
        Err(Refusal::CounterTwice)
    );
    same!("the clone's last", feed(&mut two, 7, 0x21), Ok(Some(7)));
    same!("the first one's last", feed(&mut one, 7, 0x21), Ok(Some(7)));
    same!("a sender of the clone", feed(&mut two, 8, 0x20), Ok(None));
    same!("is not the first one's", feed(&mut one, 8, 0x21), Ok(None));
}

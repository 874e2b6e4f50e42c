//! An index beside a capture: made afresh, extended, asked.

use twin::fast;
use twin::frames::{open, write, Writer};
use twin::gen::{self, Rng};
use twin::index::{Entry, Index, COUNTED};

/// What a list holds where nothing was written.
const OTHER: Entry = Entry {
    offset: 7,
    msg_type: 7,
    sender: 7,
    length: 7,
};

fn frame(msg_type: u16, sender: u16, payload: &[u8]) -> Vec<u8> {
    let mut out = [0; 263];
    let size = write(msg_type, Writer::new(0).named(sender), payload, &mut out).unwrap();
    out[..size].to_vec()
}

fn afresh(capture: &[u8]) -> (Index, Vec<Entry>) {
    let mut index = Index::default();
    let mut list = vec![OTHER; capture.len() / 8];
    index.extend(capture, &mut list).unwrap();
    list.truncate(index.held as usize);
    (index, list)
}

/// Where a capture that grows by pieces of 0 to 300 bytes stands each time.
fn growing(rng: &mut Rng, length: usize) -> Vec<usize> {
    let mut ends = vec![0];
    while ends[ends.len() - 1] < length {
        let more = rng.between(0, 300);
        ends.push(length.min(ends[ends.len() - 1] + more));
    }
    ends
}

#[test]
fn document_01s_capture() {
    let example = frame(0x0202, 1228, &[0; 20]);
    let obs = frame(0x0049, 0, &[0xE8, 3, 0, 0, 0x6C, 7, 0x10]);
    let capture = [&[0], &example[..], &obs, &[0x55]].concat();
    let (index, list) = afresh(&capture);
    assert_eq!((index.reached, index.held), (44, 2));
    let (first, second) = (list[0], list[1]);
    assert_eq!((first.offset, first.msg_type), (1, 0x0202));
    assert_eq!((first.sender, first.length), (1228, 20));
    assert_eq!((second.offset, second.msg_type), (29, 0x0049));
    assert_eq!((second.sender, second.length), (0, 7));
    assert_eq!(index.count(0x0202), Ok(1));
    assert_eq!(index.count(0x0049), Ok(1));
    assert_eq!(index.count(0xFFFF), Ok(0));
    assert_eq!(index.count(0x0000), Err(21));
    assert_eq!(index.first(&list, 0x0049, 0, 29), Ok(Some(1)));
    assert_eq!(index.first(&list, 0x0049, 0, 30), Ok(None));
    assert_eq!(index.first(&list, 0x0049, 1, 0), Ok(None));
    assert_eq!(index.first(&list[..1], 0x0202, 1228, 0), Err(51));
}

/// 52 comes first; neither changes anything; 51 also where nothing new came.
#[test]
fn refusals() {
    let one = frame(0xFFFF, 5, &[0; 4]);
    let capture = [&one[..], &one, &[0; 5]].concat();
    let (mut index, _) = afresh(&capture);
    let before = index;
    let mut list = [OTHER; 2];
    assert_eq!(index.extend(&capture[..28], &mut list[..1]), Err(52));
    assert_eq!(index.extend(&capture, &mut list[..1]), Err(51));
    assert_eq!(
        index.extend(&[&capture[..], &one].concat(), &mut list),
        Err(51)
    );
    assert_eq!((index, list), (before, [OTHER; 2]));
    assert_eq!(index.extend(&capture, &mut list), Ok(()));
    assert_eq!((index, list), (before, [OTHER; 2]));
}

/// Extended by pieces it is the one made afresh, in a list that grows with it,
/// and the fast one is the same at each step.
#[test]
fn extended_as_made_afresh() {
    let mut rng = Rng::new(8);
    let (mut short, mut entries) = (0, 0);
    for seed in 0..600 {
        let capture = gen::capture(seed);
        let capture = &capture[..capture.len().min(6000)];
        let (mut index, mut list) = (Index::default(), vec![]);
        let (mut quick, mut quicks) = (fast::Index::default(), vec![]);
        for end in growing(&mut rng, capture.len()) {
            let part = &capture[..end];
            let (whole, wanted) = afresh(part);
            if wanted.len() > list.len() {
                let before = (index, list.clone());
                assert_eq!(index.extend(part, &mut list), Err(51));
                assert_eq!(quick.extend(part, &mut quicks), 51);
                assert_eq!((index, list.clone()), before);
                short += 1;
                let spare = rng.pick(&[0, 0, 1, 40, 400]);
                list.resize(wanted.len() + spare, OTHER);
                quicks.resize(list.len(), quickly(&OTHER));
            }
            assert_eq!(index.extend(part, &mut list), Ok(()));
            assert_eq!(quick.extend(part, &mut quicks), 0);
            assert_eq!(index, whole, "seed {seed}, {end} bytes");
            assert_eq!(list[..wanted.len()], wanted);
            assert!(list[wanted.len()..].iter().all(|e| *e == OTHER));
            assert_eq!((quick.reached, quick.held), (index.reached, index.held));
            assert_eq!(quick.counts, index.counts);
            assert_eq!(quicks, list.iter().map(quickly).collect::<Vec<_>>());
        }
        entries += index.held;
    }
    assert!(short > 1000 && entries > 5000, "{short}, {entries}");
}

fn quickly(e: &Entry) -> fast::Entry {
    fast::Entry {
        offset: e.offset,
        msg_type: e.msg_type,
        sender: e.sender,
        length: e.length,
    }
}

/// The first of a full open reading, and none exactly where that has none.
#[test]
fn first_as_a_full_reading_has_it() {
    let (mut found, mut none) = (0, 0);
    for seed in 0..300 {
        let capture = gen::capture(seed);
        let capture = &capture[..capture.len().min(3000)];
        let (index, list) = afresh(capture);
        let quick = fast::Index {
            reached: index.reached,
            held: index.held,
            counts: index.counts,
        };
        let quicks: Vec<_> = list.iter().map(quickly).collect();
        let frames = open(capture, 0).frames;
        for frame in &frames {
            let at = frame.offset;
            for offset in [0, at.max(1) - 1, at, at + 1] {
                for (kind, sender) in [
                    (frame.msg_type, frame.sender),
                    (frame.msg_type, !frame.sender),
                    (frame.msg_type ^ 1, frame.sender),
                ] {
                    let wanted = frames.iter().position(|f| {
                        f.msg_type == kind && f.sender == sender && f.offset >= offset
                    });
                    let at = offset as u64;
                    assert_eq!(index.first(&list, kind, sender, at), Ok(wanted));
                    assert_eq!(quick.first(&quicks, kind, sender, at), wanted);
                    match wanted {
                        Some(_) => found += 1,
                        None => none += 1,
                    }
                }
            }
        }
    }
    assert!(found > 1000 && none > 1000, "{found}, {none}");
}

/// A refused payload is a frame, and counts; every type with a reading has a
/// count, and no other.
#[test]
fn counts_as_a_full_reading_has_them() {
    let mut counted = [0; 24];
    for seed in 0..600 {
        let capture = gen::capture(seed);
        let (index, _) = afresh(&capture);
        let frames = open(&capture, 0).frames;
        for (i, &kind) in COUNTED.iter().enumerate() {
            let wanted = frames.iter().filter(|f| f.msg_type == kind).count() as u64;
            assert_eq!(index.count(kind), Ok(wanted));
            counted[i] += wanted;
        }
    }
    assert!(counted.iter().all(|&n| n > 0), "{counted:?}");
    let mut listed = COUNTED;
    let mut known = gen::TYPES;
    listed.sort();
    known.sort();
    assert_eq!(listed, known);
    for kind in 0..=65535 {
        assert_eq!(Index::default().count(kind).is_ok(), known.contains(&kind));
    }
}

/// Numbers that no call made are gone by.
#[test]
fn numbers_that_no_call_made() {
    let one = frame(0xFFFF, 5, &[0; 4]);
    let capture = [&one[..], &one].concat();
    let mut list = [OTHER; 3];
    // In the middle of a frame, and in a list that holds something.
    let mut index = Index {
        reached: 3,
        held: 2,
        counts: [u64::MAX; 24],
    };
    assert_eq!(index.extend(&capture, &mut list), Ok(()));
    assert_eq!((index.reached, index.held), (24, 3));
    assert_eq!(index.count(0xFFFF), Ok(0));
    assert_eq!(index.count(0x0049), Ok(u64::MAX));
    assert_eq!((list[1], list[2].offset), (OTHER, 12));
    // The frames to hold are more than a number can say.
    for held in [u64::MAX, u64::MAX - 1] {
        let mut full = Index {
            held,
            ..Index::default()
        };
        assert_eq!(full.extend(&capture, &mut list), Err(51));
        assert_eq!(full.first(&list, 7, 7, 0), Err(51));
    }
    assert_eq!(
        index.bytes()[..17],
        [24, 0, 0, 0, 0, 0, 0, 0, 3, 0, 0, 0, 0, 0, 0, 0, 255]
    );
    assert_eq!(index.bytes().len(), 208);
}

//! Indexes beside captures: extended while the capture grows, and asked; and
//! such as no call made.

use twin::frames::open;
use twin::gen::{Rng, TYPES};
use twin::index::{Entry, Index};
use twin::numbers::{No, BUFFER_TOO_SHORT};

use crate::asked::{as_bytes, lent, told, Asked, Question, Side, FILL};
use crate::values::kind_near;

const INDEX: usize = 208;
/// What stands after the last field of an entry in C.
const BETWEEN: usize = 3;
/// How much of a capture comes piece by piece, and how much at a time; then
/// the rest comes at once.
const BY_PIECES: usize = 4000;
const PIECE: usize = 300;
/// What `first` answers where there is none.
const NONE: No = 1;

/// An index, of calls or made up, and the list that is lent with it.
struct Beside {
    made_up: bool,
    index: Index,
    list: Vec<Entry>,
}

pub fn ask(asked: &mut Asked, rng: &mut Rng, bytes: &[u8]) {
    ask_growing(asked, rng, bytes);
    if asked.side == Side::C {
        let bytes = &bytes[..bytes.len().min(BY_PIECES)];
        for _ in 0..6 {
            ask_made_up(asked, rng, bytes);
        }
    }
}

/// A capture that grows, and an index that is extended with it.
fn ask_growing(asked: &mut Asked, rng: &mut Rng, bytes: &[u8]) {
    ask_index(asked, rng);
    let mut beside = Beside {
        made_up: false,
        index: Index::default(),
        list: Vec::new(),
    };
    let mut end = 0;
    loop {
        let part = &bytes[..end];
        if asked.side == Side::C {
            ask_short(asked, rng, &beside, part);
        }
        ask_shrunk(asked, rng, &beside, part);
        beside.make_room(asked, rng, part);
        ask_extend(asked, rng, &mut beside, INDEX, part);
        ask_about(asked, rng, &beside);
        if end == bytes.len() {
            return;
        }
        end = match end {
            0..BY_PIECES => bytes.len().min(end + rng.between(0, PIECE)),
            _ => bytes.len(),
        };
    }
}

impl Beside {
    /// What extending comes to.
    fn needed(&self, capture: &[u8]) -> usize {
        self.held() + open(capture, self.index.reached as usize).frames.len()
    }

    fn held(&self) -> usize {
        self.index.held as usize
    }

    /// The name under which an answer is counted.
    fn named(&self, called: &'static str, made_up: &'static str) -> &'static str {
        if self.made_up {
            made_up
        } else {
            called
        }
    }

    /// With a list of so many entries: those after the ones held look like
    /// them, and are nowhere to be found.
    fn of(&self, rng: &mut Rng, most: usize) -> Beside {
        let mut list = self.list.clone();
        list.truncate(self.held().min(most));
        while list.len() < most {
            let other = entry(rng);
            let like = list.get(rng.below(2 * list.len())).copied();
            list.push(like.unwrap_or(other));
        }
        Beside { list, ..*self }
    }

    /// A list that is enough: just so, or for all frames that may come, which
    /// are filled in one pass, or around that. Rust's is always just so.
    fn make_room(&mut self, asked: &Asked, rng: &mut Rng, capture: &[u8]) {
        let needed = self.needed(capture);
        let left = capture.len() - self.index.reached as usize;
        let all = self.held() + left / 8;
        let most = match asked.side {
            Side::C => rng.pick(&[needed, needed, needed + 1, all, all + 1, all.max(1) - 1]),
            Side::Rust => needed,
        };
        *self = self.of(rng, most.max(needed));
    }
}

/// Any entry, at times of a type and a sender that come often.
fn entry(rng: &mut Rng) -> Entry {
    Entry {
        offset: rng.word() >> rng.below(64),
        msg_type: rng.pick(&[0x0049, 0xFFFF, 0x0000, 0x0401]),
        sender: rng.pick(&[0, 1, 1228, 65535]),
        length: rng.byte(),
    }
}

/// The list as C has it.
fn in_c(list: &[Entry], between: &[[u8; BETWEEN]]) -> Vec<u8> {
    let mut bytes = Vec::new();
    for (e, between) in list.iter().zip(between) {
        bytes.extend(e.offset.to_le_bytes());
        bytes.extend(e.msg_type.to_le_bytes());
        bytes.extend(e.sender.to_le_bytes());
        bytes.push(e.length);
        bytes.extend(between);
    }
    bytes
}

/// In Rust nothing of it is shown.
fn any_between(asked: &Asked, rng: &mut Rng, list: &[Entry]) -> Vec<[u8; BETWEEN]> {
    let mut any = || match asked.side {
        Side::C => rng.byte(),
        Side::Rust => 0,
    };
    list.iter().map(|_| [any(), any(), any()]).collect()
}

/// The index in so much room, or a part of it.
fn in_room(index: &Index, room: usize) -> Vec<u8> {
    let mut bytes = index.bytes();
    bytes.resize(room, FILL);
    bytes
}

fn index_room(rng: &mut Rng) -> usize {
    let less = rng.below(INDEX);
    rng.pick(&[0, less, INDEX - 1, INDEX, INDEX + 1, INDEX + 40])
}

/// At times less than an index, or more.
fn part(asked: &Asked, rng: &mut Rng) -> usize {
    if asked.side == Side::C && rng.chance(1, 12) {
        index_room(rng)
    } else {
        INDEX
    }
}

fn ask_index(asked: &mut Asked, rng: &mut Rng) {
    let room = match asked.side {
        Side::C => index_room(rng),
        Side::Rust => INDEX,
    };
    let question = Question::new("index", b'I').count(room);
    let (number, front) = match room {
        0..INDEX => (BUFFER_TOO_SHORT, Vec::new()),
        _ => (0, Index::default().bytes()),
    };
    asked.call(question, number, &told(&[number], &[&lent(room, &front)]));
}

/// In a list that is too short, or with an index that is.
fn ask_short(asked: &mut Asked, rng: &mut Rng, beside: &Beside, capture: &[u8]) {
    let needed = beside.needed(capture);
    if needed > 0 && rng.chance(1, 2) {
        let less = rng.below(needed);
        let most = rng.pick(&[needed - 1, needed - 1, less, 0]);
        let room = part(asked, rng);
        let mut beside = beside.of(rng, most);
        ask_extend(asked, rng, &mut beside, room, capture);
    }
    if rng.chance(1, 8) {
        let most = rng.pick(&[needed, 0]);
        let room = index_room(rng);
        let mut beside = beside.of(rng, most);
        ask_extend(asked, rng, &mut beside, room, capture);
    }
}

/// With a capture shorter than the position reached; at times the list is too
/// short as well.
fn ask_shrunk(asked: &mut Asked, rng: &mut Rng, beside: &Beside, capture: &[u8]) {
    let reached = beside.index.reached as usize;
    if reached > 0 && rng.chance(1, 4) {
        let less = rng.below(reached);
        let size = rng.pick(&[reached - 1, reached - 1, less]);
        let most = match asked.side {
            Side::C => rng.pick(&[beside.held(), 0]),
            Side::Rust => beside.held(),
        };
        let shorter = &capture[..size];
        let mut beside = beside.of(rng, most);
        ask_extend(asked, rng, &mut beside, INDEX, shorter);
    }
}

/// One call; what stands between fields belongs to nobody in entries that are
/// held, so the driver is told how many.
fn ask_extend(asked: &mut Asked, rng: &mut Rng, beside: &mut Beside, room: usize, capture: &[u8]) {
    let name = beside.named("extend", "extend made up");
    let mut between = any_between(asked, rng, &beside.list);
    let mut index = in_room(&beside.index, room);
    let question = Question::new(name, b'E').bytes(&index);
    let question = question.count(beside.list.len());
    let question = question.put(&in_c(&beside.list, &between));
    let number = match room {
        0..INDEX => BUFFER_TOO_SHORT,
        _ => {
            let extended = beside.index.extend(capture, &mut beside.list);
            extended.err().unwrap_or(0)
        }
    };
    let held = if number == 0 { beside.held() } else { 0 };
    between[..held].fill([0; BETWEEN]);
    if number == 0 {
        index = in_room(&beside.index, room);
    }
    let list = in_c(&beside.list, &between);
    let question = question.count(held).bytes(capture);
    asked.call(question, number, &told(&[number], &[&index, &list]));
}

/// Some questions: about frames that are there and others, at their offsets,
/// one before and one after; about types.
fn ask_about(asked: &mut Asked, rng: &mut Rng, beside: &Beside) {
    for _ in 0..2 {
        let like = entry(rng);
        let some = beside.list[..beside.held()].get(rng.below(beside.held()));
        let like = some.copied().unwrap_or(like);
        ask_first(asked, rng, beside, &like);
    }
    let known = rng.pick(&TYPES);
    ask_count(asked, rng, beside, known);
    if asked.side == Side::C && beside.held() > 0 && rng.chance(1, 8) {
        let fewer = rng.below(beside.held());
        let most = rng.pick(&[beside.held() - 1, fewer, 0]);
        let like = beside.list[0];
        let beside = beside.of(rng, most);
        ask_first(asked, rng, &beside, &like);
    }
}

fn ask_first(asked: &mut Asked, rng: &mut Rng, beside: &Beside, e: &Entry) {
    let kind = kind_near(rng, e.msg_type);
    let other = rng.word() as u16;
    let sender = rng.pick(&[e.sender, e.sender, e.sender, e.sender ^ 1, other]);
    let (before, after) = (e.offset.saturating_sub(1), e.offset.saturating_add(1));
    let offset = rng.pick(&[0, before, e.offset, e.offset, after, u64::MAX]);
    let room = part(asked, rng);
    let between = any_between(asked, rng, &beside.list);
    let name = beside.named("first", "first made up");
    let question = Question::new(name, b'q').bytes(&in_room(&beside.index, room));
    let question = question.count(beside.list.len());
    let question = question.put(&in_c(&beside.list, &between));
    let question = question.put(&kind.to_le_bytes()).put(&sender.to_le_bytes());
    let question = question.put(&offset.to_le_bytes());
    let found = match room {
        0..INDEX => Err(BUFFER_TOO_SHORT),
        _ => beside.index.first(&beside.list, kind, sender, offset),
    };
    let (number, place) = match found {
        Err(number) => (number, vec![FILL; 8]),
        Ok(None) => (NONE, vec![FILL; 8]),
        Ok(Some(place)) => (0, as_bytes(&[place as u64])),
    };
    asked.call(question, number, &told(&[number], &[&place]));
}

fn ask_count(asked: &mut Asked, rng: &mut Rng, beside: &Beside, known: u16) {
    let kind = kind_near(rng, known);
    let room = part(asked, rng);
    let name = beside.named("count", "count made up");
    let question = Question::new(name, b'k').bytes(&in_room(&beside.index, room));
    let question = question.put(&kind.to_le_bytes());
    let counted = match room {
        0..INDEX => Err(BUFFER_TOO_SHORT),
        _ => beside.index.count(kind),
    };
    let (number, total) = match counted {
        Err(number) => (number, vec![FILL; 8]),
        Ok(count) => (0, as_bytes(&[count])),
    };
    asked.call(question, number, &told(&[number], &[&total]));
}

/// Any bytes are some index: it goes by its numbers.
fn ask_made_up(asked: &mut Asked, rng: &mut Rng, bytes: &[u8]) {
    let any = rng.word();
    let (inside, end) = (rng.below(bytes.len() + 1) as u64, bytes.len() as u64);
    let reached = rng.pick(&[0, inside, inside, end, end + 1, any, u64::MAX]);
    let most = rng.pick(&[0, 1, 5, 40]);
    let list: Vec<Entry> = (0..most).map(|_| entry(rng)).collect();
    let held = made_up_held(rng, bytes, reached, most as u64);
    let index = Index {
        reached,
        held,
        counts: [0; 24].map(|_: u64| u64::MAX - rng.word() % 3),
    };
    let mut beside = Beside {
        made_up: true,
        index,
        list,
    };
    let like = beside.list.get(rng.below(most)).copied();
    let like = like.unwrap_or_else(|| entry(rng));
    ask_first(asked, rng, &beside, &like);
    let known = rng.pick(&TYPES);
    ask_count(asked, rng, &beside, known);
    let room = part(asked, rng);
    ask_extend(asked, rng, &mut beside, room, bytes);
}

/// Within the list, its end, past it; with the new ones just its end, one
/// more, or more than a number can say.
fn made_up_held(rng: &mut Rng, bytes: &[u8], reached: u64, most: u64) -> u64 {
    let new = open(bytes, reached as usize).frames.len() as u64;
    let within = rng.below(most as usize + 1) as u64;
    let full = most.saturating_sub(new);
    let (over, any) = (new.wrapping_neg(), rng.word());
    rng.pick(&[
        0,
        within,
        full,
        full,
        full + 1,
        most,
        most + 1,
        over,
        u64::MAX,
        any,
    ])
}

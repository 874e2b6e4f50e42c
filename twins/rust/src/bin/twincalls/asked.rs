//! The driver that is asked, what it is asked with, and how often it gave
//! each answer.

use std::collections::BTreeMap;
use std::io::{Read, Write};
use std::process::{exit, Child, ChildStdin, ChildStdout, Command, Stdio};

use crate::senders::{Source, Who};

/// What a lent buffer holds before a call.
pub const FILL: u8 = 0xEE;

/// Who is asked. Rust's safe interface is asked less: its rows have their
/// fields and its reports their room, and a field holds what its type holds.
#[derive(Clone, Copy, PartialEq, Eq)]
pub enum Side {
    C,
    Rust,
}

/// A request: a letter and its arguments.
pub struct Question {
    name: &'static str,
    kind: Option<u16>,
    who: Option<Who>,
    bytes: Vec<u8>,
}

impl Question {
    pub fn new(name: &'static str, letter: u8) -> Question {
        Question {
            name,
            kind: None,
            who: None,
            bytes: vec![letter],
        }
    }

    /// Puts the type, under which the answer is counted too.
    pub fn of(mut self, kind: u16) -> Question {
        self.kind = Some(kind);
        self.put(&kind.to_le_bytes())
    }

    /// Puts who writes, by which the frame is counted too.
    pub fn by(mut self, who: Who) -> Question {
        self.who = Some(who);
        self.put(&who.bytes())
    }

    pub fn put(mut self, bytes: &[u8]) -> Question {
        self.bytes.extend(bytes);
        self
    }

    /// A room or another count.
    pub fn count(self, count: usize) -> Question {
        self.put(&(count as u32).to_le_bytes())
    }

    pub fn bytes(self, bytes: &[u8]) -> Question {
        self.count(bytes.len()).put(bytes)
    }

    pub fn numbers(self, numbers: &[u64]) -> Question {
        self.count(numbers.len()).put(&as_bytes(numbers))
    }
}

pub fn as_bytes(numbers: &[u64]) -> Vec<u8> {
    numbers.iter().flat_map(|n| n.to_le_bytes()).collect()
}

pub fn hash(bytes: &[u8]) -> u64 {
    let start = 0xcbf2_9ce4_8422_2325_u64;
    bytes.iter().fold(start, |h, &b| {
        (h ^ u64::from(b)).wrapping_mul(0x0100_0000_01b3)
    })
}

/// A buffer of some room, with the bytes at its start.
pub fn lent(room: usize, front: &[u8]) -> Vec<u8> {
    let mut buf = vec![FILL; room];
    buf[..front.len()].copy_from_slice(front);
    buf
}

/// A reply: an answer, that nothing else was touched, and the hash of each
/// buffer lent to be written.
pub fn told(answer: &[u8], buffers: &[&[u8]]) -> Vec<u8> {
    let mut reply = answer.to_vec();
    reply.push(1);
    for buffer in buffers {
        reply.extend(hash(buffer).to_le_bytes());
    }
    reply
}

pub struct Asked {
    pub side: Side,
    pub times: BTreeMap<(&'static str, u8), u64>,
    pub times_of: BTreeMap<(u16, &'static str, u8), u64>,
    /// Of frames written, by where their number comes from.
    pub times_sent: BTreeMap<(&'static str, Source), u64>,
    pub calls: u64,
    pub failed: u64,
    child: Child,
    to: ChildStdin,
    from: ChildStdout,
}

impl Asked {
    pub fn start(side: Side, command: &[String]) -> Asked {
        let mut child = Command::new(&command[0])
            .args(&command[1..])
            .stdin(Stdio::piped())
            .stdout(Stdio::piped())
            .spawn()
            .expect("the driver starts");
        Asked {
            side,
            times: BTreeMap::new(),
            times_of: BTreeMap::new(),
            times_sent: BTreeMap::new(),
            calls: 0,
            failed: 0,
            to: child.stdin.take().expect("it has an input"),
            from: child.stdout.take().expect("it has an output"),
            child,
        }
    }

    /// One call, whose whole reply is known; its answer is counted as that.
    pub fn call(&mut self, question: Question, answer: u8, expected: &[u8]) {
        let reply = self.reply(&question, answer, expected.len());
        self.judge(&question, reply == expected, &reply, expected);
    }

    /// The reply to a call, which is counted under the answer expected.
    pub fn reply(&mut self, question: &Question, answer: u8, size: usize) -> Vec<u8> {
        *self.times.entry((question.name, answer)).or_default() += 1;
        if let Some(kind) = question.kind {
            let of = (kind, question.name, answer);
            *self.times_of.entry(of).or_default() += 1;
        }
        if let (Some(who), 0) = (question.who, answer) {
            let sent = (question.name, who.source(question.kind));
            *self.times_sent.entry(sent).or_default() += 1;
        }
        self.calls += 1;
        let mut reply = vec![0; size];
        let went = self.to.write_all(&question.bytes);
        if went
            .and_then(|()| self.from.read_exact(&mut reply))
            .is_err()
        {
            self.failed += 1;
            println!("{}: no reply to {}", question.name, question.hex());
            println!("{} passed, {} failed", self.calls - 1, self.failed);
            exit(1);
        }
        reply
    }

    /// Counts and prints what is not as expected.
    pub fn judge(&mut self, question: &Question, held: bool, reply: &[u8], expected: &[u8]) {
        if !held {
            self.failed += 1;
            let (name, hex) = (question.name, question.hex());
            println!("{name}: {reply:x?} and not {expected:x?} for {hex}");
        }
    }

    /// Whether the driver ended well, which has nothing more to answer.
    pub fn ended(self) -> bool {
        let Asked { mut child, to, .. } = self;
        drop(to);
        child.wait().is_ok_and(|status| status.success())
    }
}

impl Question {
    fn hex(&self) -> String {
        self.bytes.iter().map(|b| format!("{b:02x}")).collect()
    }
}

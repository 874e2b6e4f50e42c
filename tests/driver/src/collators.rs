//! A collator, and frames fed to it.

use std::io::{self, Read};

use yaqtumeer::{Collator, Epoch, Frame, Refusal};

use crate::talk::{Reply, Request, number};

const REPORT: usize = 11;

/// The collator of the request before.
#[derive(Default)]
pub struct Held {
    collator: Option<Collator>,
}

/// The state, which is not shown, and what is lent after it, which is nothing.
fn put_state(reply: &mut Reply) {
    reply.put(&[0; 8]);
}

fn put_rest(reply: &mut Reply) {
    reply.hash(&[]);
}

fn row_of(epoch: &Epoch) -> Vec<u8> {
    let mut row = Vec::new();
    row.extend(epoch.sender.to_le_bytes());
    row.extend(epoch.wn.to_le_bytes());
    row.extend(epoch.tow.to_le_bytes());
    row.push(epoch.n);
    row.extend(epoch.observations.to_le_bytes());
    row
}

impl Held {
    pub fn roster(
        &mut self,
        request: &mut Request<impl Read>,
        reply: &mut Reply,
    ) -> io::Result<()> {
        request.count()?;
        let count = request.count()?;
        let roster: io::Result<Vec<u16>> = (0..count).map(|_| request.u16()).collect();
        let made = Collator::new(&roster?);
        reply.answer(&made, true);
        self.collator = made.ok();
        put_state(reply);
        put_rest(reply);
        Ok(())
    }

    pub fn growing(
        &mut self,
        request: &mut Request<impl Read>,
        reply: &mut Reply,
    ) -> io::Result<()> {
        request.count()?;
        self.collator = Some(Collator::growing());
        reply.put(&[0, 1]);
        put_state(reply);
        put_rest(reply);
        Ok(())
    }

    /// By type, sender and payload; a copy that is fed the frame says the same.
    pub fn feed(&mut self, request: &mut Request<impl Read>, reply: &mut Reply) -> io::Result<()> {
        request.count()?;
        request.count()?;
        let (kind, sender) = (request.u16()?, request.u16()?);
        let payload = request.bytes()?;
        let collator = self.collator.as_mut();
        let collator = collator.ok_or_else(|| io::Error::other("no collator"))?;
        let mut copy = collator.clone();
        let fed = collator.feed_content(kind, sender, &payload);
        let frame = Frame {
            at: 0,
            kind,
            sender,
            payload: &payload,
            crc: 0,
        };
        let agreed = copy.feed(&frame) == fed;
        reply.put(&[answer(&fed), u8::from(agreed)]);
        put_state(reply);
        match fed {
            Ok(Some(epoch)) => reply.hash(&row_of(&epoch)),
            _ => reply.hash_untouched(REPORT),
        }
        put_rest(reply);
        Ok(())
    }
}

fn answer(fed: &Result<Option<Epoch>, Refusal>) -> u8 {
    match fed {
        Ok(Some(_)) => 1,
        other => number(other),
    }
}

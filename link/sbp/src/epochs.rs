//! `sbp epochs`: a table by sender.

use crate::input::{Reader, Totals};
use std::collections::HashMap;
use yaqtumeer::{Collator, Epoch, Frame, Obs, Refusal};

/// A collator lists at most so many senders.
const SEATS: usize = 8;

const COLUMNS: usize = 9;
const HEADINGS: [&str; COLUMNS] = [
    "sender",
    "epochs",
    "first_wn",
    "first_tow",
    "last_wn",
    "last_tow",
    "observations",
    "no_epoch",
    "copies",
];

/// What is known of a sender.
struct Row {
    sender: u16,
    epochs: u64,
    first: Option<Epoch>,
    last: Option<Epoch>,
    observations: u64,
    /// Its observation frames; of these those that are in an epoch, and the copies.
    frames: u64,
    collated: u64,
    copies: u64,
}

impl Row {
    fn new(sender: u16) -> Row {
        Row {
            sender,
            epochs: 0,
            first: None,
            last: None,
            observations: 0,
            frames: 0,
            collated: 0,
            copies: 0,
        }
    }

    fn take(&mut self, epoch: Epoch) {
        self.epochs += 1;
        self.first.get_or_insert(epoch);
        self.last = Some(epoch);
        self.observations += u64::from(epoch.observations);
        self.collated += u64::from(epoch.n);
    }

    fn cells(&self) -> [String; COLUMNS] {
        let wn = |e: Option<Epoch>| e.map_or("-".into(), |e| e.wn.to_string());
        let tow = |e: Option<Epoch>| e.map_or("-".into(), |e| e.tow.to_string());
        [
            self.sender.to_string(),
            self.epochs.to_string(),
            wn(self.first),
            tow(self.first),
            wn(self.last),
            tow(self.last),
            self.observations.to_string(),
            (self.frames - self.collated - self.copies).to_string(),
            self.copies.to_string(),
        ]
    }
}

/// Rows in order of appearance. The senders of row 0 to 7 are the first collator's, the next eight the second's: senders don't mix, so that it
/// is all the same with whom one shares a collator.
#[derive(Default)]
pub struct Epochs {
    title: Option<Vec<u8>>,
    rows: Vec<Row>,
    places: HashMap<u16, usize>,
    collators: Vec<Collator>,
}

impl Epochs {
    pub fn titled(title: Option<Vec<u8>>) -> Epochs {
        Epochs {
            title,
            ..Epochs::default()
        }
    }

    /// The sender's row, which it gets where it has none.
    fn place(&mut self, sender: u16) -> usize {
        *self.places.entry(sender).or_insert_with(|| {
            if self.rows.len() == SEATS * self.collators.len() {
                self.collators.push(Collator::growing());
            }
            self.rows.push(Row::new(sender));
            self.rows.len() - 1
        })
    }
}

impl Reader for Epochs {
    fn frame(&mut self, _at: u64, frame: &Frame, _text: &mut Vec<u8>) {
        if frame.kind != Obs::KIND {
            return;
        }
        let place = self.place(frame.sender);
        let row = &mut self.rows[place];
        row.frames += 1;
        match self.collators[place / SEATS].feed(frame) {
            Ok(Some(epoch)) => row.take(epoch),
            // What it brings is in the open epoch already, so that nothing is lost with it.
            Err(Refusal::CounterTwice) => row.copies += 1,
            Ok(None) | Err(_) => (),
        }
    }

    fn end(&mut self, totals: Option<&Totals>, text: &mut Vec<u8>) {
        if totals.is_none() && self.rows.is_empty() {
            return;
        }
        if let Some(title) = &self.title {
            text.extend_from_slice(&[b"==> ", &title[..], b" <==\n"].concat());
        }
        let mut lines = vec![HEADINGS.map(String::from)];
        lines.extend(self.rows.iter().map(Row::cells));
        push_table(text, &lines);
    }
}

/// Columns as wide as their widest cell, aligned to the right.
fn push_table(text: &mut Vec<u8>, lines: &[[String; COLUMNS]]) {
    let width = |column: usize| lines.iter().map(|cells| cells[column].len()).max();
    let widths: Vec<usize> = (0..COLUMNS).filter_map(width).collect();
    for cells in lines {
        let padded = cells
            .iter()
            .zip(&widths)
            .map(|(cell, &width)| format!("{cell:>width$}"));
        text.extend_from_slice(padded.collect::<Vec<_>>().join("  ").as_bytes());
        text.push(b'\n');
    }
}

#[cfg(test)]
mod tests {
    use super::*;

    #[test]
    fn columns_are_as_wide_as_their_widest_cell() {
        let narrow = ["1"; COLUMNS].map(String::from);
        let mut wide = narrow.clone();
        wide[1] = "12345".into();
        let mut text = Vec::new();
        push_table(&mut text, &[narrow, wide]);
        let wanted = "1      1  1  1  1  1  1  1  1\n1  12345  1  1  1  1  1  1  1\n";
        assert_eq!(String::from_utf8(text).expect("it is ASCII"), wanted);
    }
}

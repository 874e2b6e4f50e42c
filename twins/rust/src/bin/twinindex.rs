//! Reads a capture on standard input to its end, extends an index over it piece
//! by piece, and prints it: each entry with the place of the next like it, the
//! counts, and the position reached.
//!
//! usage: twinindex BYTES-OF-A-PIECE

use std::env;
use std::io::{self, Read};

use twin::index::{Entry, Index};

fn extended(capture: &[u8], piece: usize) -> (Index, Vec<Entry>) {
    let mut index = Index::default();
    let mut list = vec![Entry::default(); capture.len() / 8];
    for end in (0..capture.len() + piece).step_by(piece) {
        let part = &capture[..end.min(capture.len())];
        index.extend(part, &mut list).expect("a list with room");
    }
    list.truncate(index.held as usize);
    (index, list)
}

fn print_entry(index: &Index, list: &[Entry], e: &Entry) {
    let next = index.first(list, e.msg_type, e.sender, e.offset + 1);
    let next = next.expect("the list is whole");
    let next = next.map_or(String::new(), |place| format!(" {place}"));
    println!(
        "F {} {} {} {}{next}",
        e.offset, e.msg_type, e.sender, e.length
    );
}

fn main() -> io::Result<()> {
    let piece = env::args().nth(1).and_then(|word| word.parse().ok());
    let piece = piece
        .filter(|&bytes| bytes > 0)
        .ok_or_else(|| io::Error::other("usage: twinindex BYTES-OF-A-PIECE"))?;
    let mut capture = Vec::new();
    io::stdin().read_to_end(&mut capture)?;
    let (index, list) = extended(&capture, piece);
    list.iter().for_each(|e| print_entry(&index, &list, e));
    for kind in 0..=65535 {
        if let Ok(count) = index.count(kind) {
            println!("C {kind} {count}");
        }
    }
    println!("T {} {}", index.reached, index.held);
    Ok(())
}

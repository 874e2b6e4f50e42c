//! The same answers, written for speed: for benchmarks, and as a check on
//! the plain modules. No code is shared with them; `Writer` is two numbers to
//! both.

mod answer;
mod collate;
mod crc;
mod decimal;
mod find;
mod formats;
mod index;
mod listing;
mod rows;

pub use answer::answer;
pub use collate::{Collator, Epoch};
pub use crc::{crc_sliced, crc_table};
pub use find::{closed, Counts};
pub use index::{Entry, Index};
pub use listing::listing_into;
pub use rows::{read_row, write_row};

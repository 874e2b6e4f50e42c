//! The Rust twin's fast module, for bench.c to call.

use std::slice;
use std::sync::Mutex;

use twin::fast::{
    closed, crc_sliced, crc_table, listing_into, read_row, write_row, Collator, Counts, Entry,
    Index,
};
use twin::frames::Writer;

/// The listing last made; it grows once and is used again.
static TEXT: Mutex<Vec<u8>> = Mutex::new(Vec::new());

/// # Safety
/// The caller keeps: `n` bytes are at `bytes`, and stay as they are while the
/// slice is in use.
unsafe fn lent<'a>(bytes: *const u8, n: usize) -> &'a [u8] {
    unsafe { slice::from_raw_parts(bytes, n) }
}

/// # Safety
/// The caller keeps: `n` bytes are at `bytes` for the length of the call.
#[no_mangle]
pub unsafe extern "C" fn rust_crc(start: u16, bytes: *const u8, n: usize) -> u16 {
    crc_table(start, unsafe { lent(bytes, n) })
}

/// # Safety
/// The caller keeps: `n` bytes are at `bytes` for the length of the call.
#[no_mangle]
pub unsafe extern "C" fn rust_crc_sliced(start: u16, bytes: *const u8, n: usize) -> u16 {
    crc_sliced(start, unsafe { lent(bytes, n) })
}

/// # Safety
/// The caller keeps: `n` bytes are at `capture` for the length of the call,
/// and `counts` is aligned and nobody else's.
#[no_mangle]
pub unsafe extern "C" fn rust_closed(capture: *const u8, n: usize, counts: *mut [u64; 4]) {
    let read = closed(crc_table, unsafe { lent(capture, n) });
    unsafe { *counts = told(read) }
}

/// # Safety
/// The caller keeps: `n` bytes are at `capture` for the length of the call,
/// and `counts` is aligned and nobody else's.
#[no_mangle]
pub unsafe extern "C" fn rust_closed_sliced(capture: *const u8, n: usize, counts: *mut [u64; 4]) {
    let read = closed(crc_sliced, unsafe { lent(capture, n) });
    unsafe { *counts = told(read) }
}

fn told(read: Counts) -> [u64; 4] {
    [read.frame_bytes, read.junk, read.bad, read.short].map(|count| count as u64)
}

/// As bench.c knows an epoch.
#[repr(C)]
pub struct Report {
    sender: u16,
    wn: u16,
    tow: u32,
    n: u8,
    observations: u16,
}

/// A collator, for `rust_collator_free` to end.
///
/// # Safety
/// The caller keeps: `n` senders are at `roster` for the length of the call.
#[no_mangle]
pub unsafe extern "C" fn rust_collator(roster: *const u16, n: usize) -> *mut Collator {
    let roster = unsafe { slice::from_raw_parts(roster, n) };
    Box::into_raw(Box::new(Collator::new(roster).expect("a roster")))
}

/// # Safety
/// The caller keeps: `collator` is from `rust_collator`, and not used again.
#[no_mangle]
pub unsafe extern "C" fn rust_collator_free(collator: *mut Collator) {
    drop(unsafe { Box::from_raw(collator) });
}

/// 0 taken, 1 an epoch, or the refusal.
///
/// # Safety
/// The caller keeps: `collator` is from `rust_collator`, `n` bytes are at
/// `payload` for the length of the call, and `report` is aligned and nobody
/// else's.
#[no_mangle]
pub unsafe extern "C" fn rust_feed(
    collator: *mut Collator,
    msg_type: u16,
    sender: u16,
    payload: *const u8,
    n: usize,
    report: *mut Report,
) -> u8 {
    match unsafe { (*collator).feed(msg_type, sender, lent(payload, n)) } {
        Ok(None) => 0,
        Ok(Some(e)) => {
            let told = Report {
                sender: e.sender,
                wn: e.wn,
                tow: e.tow,
                n: e.n,
                observations: e.observations.into(),
            };
            unsafe { *report = told }
            1
        }
        Err(no) => no,
    }
}

/// 0, or the refusal.
///
/// # Safety
/// The caller keeps: `n` bytes are at `payload` for the length of the call, and
/// `room` numbers, aligned and nobody else's, at `row`.
#[no_mangle]
pub unsafe extern "C" fn rust_read(
    msg_type: u16,
    payload: *const u8,
    n: usize,
    row: *mut u64,
    room: usize,
) -> u8 {
    let row = unsafe { slice::from_raw_parts_mut(row, room) };
    read_row(msg_type, unsafe { lent(payload, n) }, row)
}

/// 0, and the frame's size in `size`; or the refusal.
///
/// # Safety
/// The caller keeps: `fields` numbers are at `row` for the length of the call,
/// `room` bytes, nobody else's, at `out`, and `size` is aligned and nobody
/// else's.
#[no_mangle]
pub unsafe extern "C" fn rust_write(
    out: *mut u8,
    room: usize,
    msg_type: u16,
    own: u16,
    sender: u32,
    row: *const u64,
    fields: usize,
    size: *mut u64,
) -> u8 {
    let out = unsafe { slice::from_raw_parts_mut(out, room) };
    let row = unsafe { slice::from_raw_parts(row, fields) };
    let given = u16::try_from(sender).ok();
    match write_row(crc_table, out, msg_type, Writer { own, given }, row) {
        Ok(written) => {
            unsafe { *size = written as u64 }
            0
        }
        Err(no) => no,
    }
}

/// The listing, and its length in `size`; it stands until the next call.
///
/// # Safety
/// The caller keeps: `n` bytes are at `capture` for the length of the call,
/// and `size` is aligned and nobody else's.
#[no_mangle]
pub unsafe extern "C" fn rust_list(capture: *const u8, n: usize, size: *mut u64) -> *const u8 {
    let mut text = TEXT.lock().expect("one thread");
    listing_into(crc_table, unsafe { lent(capture, n) }, &mut text);
    unsafe { *size = text.len() as u64 }
    text.as_ptr()
}

/// 0, or the refusal.
///
/// # Safety
/// The caller keeps: `n` bytes are at `capture` for the length of the call;
/// `index`, and `most` entries at `entries`, are aligned and nobody else's.
#[no_mangle]
pub unsafe extern "C" fn rust_extend(
    index: *mut Index,
    capture: *const u8,
    n: usize,
    entries: *mut Entry,
    most: usize,
) -> u8 {
    let entries = unsafe { slice::from_raw_parts_mut(entries, most) };
    unsafe { (*index).extend(lent(capture, n), entries) }
}

/// 0, and the place in `place`; or 1 where there is none.
///
/// # Safety
/// The caller keeps: `index`, and `most` entries at `entries`, are aligned and
/// stay as they are for the length of the call; `place` is aligned and nobody
/// else's.
#[no_mangle]
pub unsafe extern "C" fn rust_first(
    index: *const Index,
    entries: *const Entry,
    most: usize,
    msg_type: u16,
    sender: u16,
    offset: u64,
    place: *mut u64,
) -> u8 {
    let entries = unsafe { slice::from_raw_parts(entries, most) };
    match unsafe { (*index).first(entries, msg_type, sender, offset) } {
        Some(found) => {
            unsafe { *place = found as u64 }
            0
        }
        None => 1,
    }
}

//! The library's functions as link/include/sbp.h has them, which says at each
//! what the caller keeps. A slice crosses as a pointer and a length: slices
//! keep that these agree, and borrows that what is written overlaps nothing.

use crate::index::Entry;

const _: () = assert!(usize::BITS == 64, "the library is for 64-bit processors");

unsafe extern "C" {
    pub fn sbp_crc(start: u16, bytes: *const u8, n: usize) -> u16;
    pub fn sbp_frame_crc(header: *const u8, header_n: usize, payload: *const u8, n: usize) -> u16;
    pub fn sbp_answer(kind: u16, payload: *const u8, n: usize) -> u8;
    pub fn sbp_next(
        capture: *const u8,
        n: usize,
        at: usize,
        opened: bool,
        found: *mut u8,
        room: usize,
    ) -> u8;
    pub fn sbp_totals(capture: *const u8, n: usize, counts: *mut u8, room: usize) -> u8;
    pub fn sbp_list(capture: *const u8, n: usize, text: *mut u8, room: usize, size: *mut u64)
    -> u8;
    pub fn sbp_collator(state: *mut u8, room: usize, roster: *const u16, n: usize) -> u8;
    pub fn sbp_growing(state: *mut u8, room: usize) -> u8;
    pub fn sbp_enlist(state: *mut u8, room: usize, kind: u16, sender: u16) -> u8;
    pub fn sbp_feed(
        state: *mut u8,
        room: usize,
        kind: u16,
        sender: u16,
        payload: *const u8,
        n: usize,
        report: *mut u8,
        report_room: usize,
    ) -> u8;
    pub fn sbp_read(kind: u16, payload: *const u8, n: usize, row: *mut u64, room: usize) -> u8;
    pub fn sbp_observation(
        kind: u16,
        payload: *const u8,
        n: usize,
        index: usize,
        row: *mut u64,
        room: usize,
    ) -> u8;
    pub fn sbp_write(
        out: *mut u8,
        room: usize,
        kind: u16,
        own: u16,
        sender: u32,
        row: *const u64,
        fields: usize,
        size: *mut u64,
    ) -> u8;
    pub fn sbp_write_obs(
        out: *mut u8,
        room: usize,
        kind: u16,
        own: u16,
        sender: u32,
        head: *const u64,
        fields: usize,
        rows: *const u64,
        numbers: usize,
        size: *mut u64,
    ) -> u8;
    pub fn sbp_write_log(
        out: *mut u8,
        room: usize,
        own: u16,
        sender: u32,
        level: u8,
        text: *const u8,
        n: usize,
        padding: usize,
        size: *mut u64,
    ) -> u8;
    pub fn sbp_write_frame(
        out: *mut u8,
        room: usize,
        kind: u16,
        own: u16,
        sender: u32,
        payload: *const u8,
        n: usize,
        size: *mut u64,
    ) -> u8;
    pub fn sbp_fix(kind: u16, flags: u8) -> u8;
    pub fn sbp_raim_available(kind: u16, flags: u8) -> u8;
    pub fn sbp_raim_repaired(kind: u16, flags: u8) -> u8;
    pub fn sbp_above_sea(kind: u16, flags: u8) -> u8;
    pub fn sbp_system_error(flags: u32) -> bool;
    pub fn sbp_io_error(flags: u32) -> bool;
    pub fn sbp_nap_error(flags: u32) -> bool;
    pub fn sbp_external_antenna(flags: u32) -> bool;
    pub fn sbp_carrier_phase(l_i: i32, l_f: u8) -> i64;
    pub fn sbp_phase_parts(phase: i64, l_i: *mut i32, l_f: *mut u8) -> u8;
    pub fn sbp_index(index: *mut u8, room: usize) -> u8;
    pub fn sbp_extend(
        index: *mut u8,
        room: usize,
        capture: *const u8,
        n: usize,
        entries: *mut Entry,
        most: usize,
    ) -> u8;
    pub fn sbp_first(
        index: *const u8,
        room: usize,
        entries: *const Entry,
        most: usize,
        kind: u16,
        sender: u16,
        offset: u64,
        place: *mut u64,
    ) -> u8;
    pub fn sbp_count(index: *const u8, room: usize, kind: u16, count: *mut u64) -> u8;
    pub fn sbp_version() -> u32;
}

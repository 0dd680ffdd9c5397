//! The proved entries, as `rt lib` exports them to C.

use crate::case::Entry;

/// A lent buffer as C sees it.
#[derive(Clone, Copy)]
pub struct Span {
    pub start: *mut u8,
    pub length: usize,
}

// Each slice is a pointer, then its length.
extern "C" {
    fn reefsplice_check(
        table: *const u8,
        table_length: usize,
        rows: *mut u8,
        rows_length: usize,
        ring: *mut u8,
        ring_length: usize,
        numbers: *mut u8,
        numbers_length: usize,
    ) -> u64;
    fn reefsplice_step(
        table: *const u8,
        table_length: usize,
        heard: *mut u8,
        heard_length: usize,
        listener: u8,
        speaker: u8,
        numbers: *mut u8,
        numbers_length: usize,
    ) -> u64;
    fn reefsplice_run(
        table: *const u8,
        table_length: usize,
        heard: *mut u8,
        heard_length: usize,
        schedule: *const u8,
        schedule_length: usize,
        sums: *mut u8,
        sums_length: usize,
        numbers: *mut u8,
        numbers_length: usize,
    ) -> u64;
}

/// Calls an entry with what it is lent, in the order of its parameters.
///
/// # Safety
/// The spans lie apart, each in memory that may be written to and that lives through the call.
pub unsafe fn call(entry: Entry, [listener, speaker]: [u8; 2], lent: &[Span]) -> u64 {
    match (entry, lent) {
        (Entry::Check, &[table, rows, ring, numbers]) => reefsplice_check(
            table.start,
            table.length,
            rows.start,
            rows.length,
            ring.start,
            ring.length,
            numbers.start,
            numbers.length,
        ),
        (Entry::Step, &[table, heard, numbers]) => reefsplice_step(
            table.start,
            table.length,
            heard.start,
            heard.length,
            listener,
            speaker,
            numbers.start,
            numbers.length,
        ),
        (Entry::Run, &[table, heard, schedule, sums, numbers]) => reefsplice_run(
            table.start,
            table.length,
            heard.start,
            heard.length,
            schedule.start,
            schedule.length,
            sums.start,
            sums.length,
            numbers.start,
            numbers.length,
        ),
        _ => unreachable!("an entry is lent what `Entry::buffers` names"),
    }
}

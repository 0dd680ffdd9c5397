//! The proved code on Rust's slices: the three C entries, which `rt lib` exports in crates/reefsplice, and the reader
//! alone, which it exports in crates/probe.

// Rattle passes a slice as a pointer, then its length.
extern "C" {
    fn probe_read(table: *const u8, table_len: usize) -> u64;
    fn reefsplice_check(
        table: *const u8,
        table_len: usize,
        rows: *mut u8,
        rows_len: usize,
        ring: *mut u8,
        ring_len: usize,
        numbers: *mut u8,
        numbers_len: usize,
    ) -> u64;
    fn reefsplice_step(
        table: *const u8,
        table_len: usize,
        heard: *mut u8,
        heard_len: usize,
        listener: u8,
        speaker: u8,
        numbers: *mut u8,
        numbers_len: usize,
    ) -> u64;
    fn reefsplice_run(
        table: *const u8,
        table_len: usize,
        heard: *mut u8,
        heard_len: usize,
        schedule: *const u8,
        schedule_len: usize,
        sums: *mut u8,
        sums_len: usize,
        numbers: *mut u8,
        numbers_len: usize,
    ) -> u64;
}

pub fn read(table: &[u8]) -> u64 {
    // SAFETY: the slice lives through the call, and the length is its own.
    unsafe { probe_read(table.as_ptr(), table.len()) }
}

pub fn check(table: &[u8], rows: &mut [u8], ring: &mut [u8], numbers: &mut [u8]) -> u64 {
    // SAFETY: the slices are apart and live through the call, and the lengths are theirs.
    unsafe {
        reefsplice_check(
            table.as_ptr(),
            table.len(),
            rows.as_mut_ptr(),
            rows.len(),
            ring.as_mut_ptr(),
            ring.len(),
            numbers.as_mut_ptr(),
            numbers.len(),
        )
    }
}

pub fn step(table: &[u8], heard: &mut [u8], v: u8, u: u8, numbers: &mut [u8]) -> u64 {
    // SAFETY: the slices are apart and live through the call, and the lengths are theirs.
    unsafe {
        reefsplice_step(
            table.as_ptr(),
            table.len(),
            heard.as_mut_ptr(),
            heard.len(),
            v,
            u,
            numbers.as_mut_ptr(),
            numbers.len(),
        )
    }
}

pub fn run(
    table: &[u8],
    heard: &mut [u8],
    schedule: &[u8],
    sums: &mut [u8],
    numbers: &mut [u8],
) -> u64 {
    // SAFETY: the slices are apart and live through the call, and the lengths are theirs.
    unsafe {
        reefsplice_run(
            table.as_ptr(),
            table.len(),
            heard.as_mut_ptr(),
            heard.len(),
            schedule.as_ptr(),
            schedule.len(),
            sums.as_mut_ptr(),
            sums.len(),
            numbers.as_mut_ptr(),
            numbers.len(),
        )
    }
}

//! The counts alone, for the benchmark and the tests: safe calls over `libcount_calls.a`.
//!
//! Inside the engine the counts of ones stand at the end of a run, a copy and a register, where they cannot be timed, and
//! tables of some lengths never reach them. `count_calls` exports them by themselves, for tables of any bytes; it is no part of
//! the engine's archive.

unsafe extern "C" {
    fn searchroom_count(table: *const u8, length: usize) -> u64;
    fn searchroom_count_bytes(table: *const u8, length: usize) -> u64;
    fn searchroom_count_lines(table: *const u8, length: usize, lines: usize, size: usize) -> u64;
}

/// The most bytes of a table that are counted: 64 lines of [`LINE`] bytes, the largest table of looks.
pub const BYTES: usize = 16_384;

/// The bytes of a line of a run's own tables.
pub const LINE: usize = 256;

/// The ones of a table's first [`BYTES`] bytes, eight bytes at a time.
///
/// ```
/// assert_eq!(count_calls::count(&[0b101, 0, 255]), 10);
/// ```
pub fn count(table: &[u8]) -> u64 {
    // SAFETY: the call reads the bytes of the slice, whose pointer is not null, and writes none.
    unsafe { searchroom_count(table.as_ptr(), table.len()) }
}

/// The same, byte by byte, as the engine counted before order 3.
pub fn count_bytes(table: &[u8]) -> u64 {
    // SAFETY: as of `count`.
    unsafe { searchroom_count_bytes(table.as_ptr(), table.len()) }
}

/// The ones of the first `size` bytes of each of the first `lines` lines of a table. Only whole lines of the table count, at
/// most 64 of them, and at most [`LINE`] bytes of each.
pub fn count_lines(table: &[u8], lines: usize, size: usize) -> u64 {
    // SAFETY: as of `count`.
    unsafe { searchroom_count_lines(table.as_ptr(), table.len(), lines, size) }
}

//! The six functions on slices of any bytes and any length, as the library has them.
//!
//! None asks anything of its caller. A refused call changes no byte of what it was lent; a call
//! that succeeds changes nothing past what it writes. A lent slice that is too short is refused as
//! 13, after everything else; what is longer than needed is fine.

use crate::answer::Answer;

/// The bytes of a record; a record of another length is refused as 12.
pub const RECORD: usize = 1894;
/// The bytes of a list of decisions, 32 options and then 64 orderings: 0 open, 1 kept, 2 dropped.
/// A list of another length, or with another byte, is refused as 14.
pub const DECISIONS: usize = 96;
/// The numbers that [`limits`] writes.
pub const LIMITS: usize = 386;
/// The catalogue numbers that [`sequence`] writes.
pub const PLACES: usize = 32;
/// The numbers that [`search`] writes: the value and the ceiling.
pub const TOTALS: usize = 2;

// Nothing checks these against the library's source: tests/ does, by calling them.
#[rustfmt::skip]
unsafe extern "C" {
    fn wharftoken_report(text: *const u8, text_len: usize, out: *mut u8, out_len: usize) -> u64;
    fn wharftoken_read(text: *const u8, text_len: usize, record: *mut u8, record_len: usize) -> u64;
    fn wharftoken_write(record: *const u8, record_len: usize, out: *mut u8, out_len: usize) -> u64;
    fn wharftoken_limits(
        record: *const u8, record_len: usize, decisions: *const u8, decisions_len: usize,
        forced: *mut u8, forced_len: usize, limits: *mut u32, limits_len: usize,
    ) -> u64;
    fn wharftoken_sequence(
        record: *const u8, record_len: usize, decisions: *const u8, decisions_len: usize,
        places: *mut u8, places_len: usize,
    ) -> u64;
    fn wharftoken_search(
        record: *const u8, record_len: usize, tolerance: u32,
        decisions: *mut u8, decisions_len: usize, totals: *mut u32, totals_len: usize,
    ) -> u64;
}

// SAFETY, of all six: a pointer and a length come from one slice, so the library may read, or read
// and write, just that many elements; lent slices are exclusive, so no two overlap; the library
// keeps no pointer.

/// The report on a sheet's text at the start of `out`; the count is its length. A refused sheet is
/// no refusal here: its report is the `E` line. Refused as 13 only.
pub fn report(text: &[u8], out: &mut [u8]) -> Answer {
    Answer::unpack(unsafe {
        wharftoken_report(text.as_ptr(), text.len(), out.as_mut_ptr(), out.len())
    })
}

/// The record of a sheet's text at the start of `record`. Refused as 1 to 10, 13.
pub fn read(text: &[u8], record: &mut [u8]) -> Answer {
    Answer::unpack(unsafe {
        wharftoken_read(text.as_ptr(), text.len(), record.as_mut_ptr(), record.len())
    })
}

/// The text of a record at the start of `out`; the count is its length. Refused as 12, 13.
pub fn write(record: &[u8], out: &mut [u8]) -> Answer {
    Answer::unpack(unsafe {
        wharftoken_write(record.as_ptr(), record.len(), out.as_mut_ptr(), out.len())
    })
}

/// Forced decisions and limits: whole lower and upper, then for each option and each ordering kept
/// lower, kept upper, dropped lower, dropped upper. The count is 1 if the decisions contradict,
/// and then all that is written is 0. Refused as 12, 14, 13.
pub fn limits(record: &[u8], decisions: &[u8], forced: &mut [u8], limits: &mut [u32]) -> Answer {
    Answer::unpack(unsafe {
        wharftoken_limits(
            record.as_ptr(),
            record.len(),
            decisions.as_ptr(),
            decisions.len(),
            forced.as_mut_ptr(),
            forced.len(),
            limits.as_mut_ptr(),
            limits.len(),
        )
    })
}

/// The catalogue number at each place, 0 past the last; the count is the number of places in use.
/// Refused as 12, 14, 15, 13.
pub fn sequence(record: &[u8], decisions: &[u8], places: &mut [u8]) -> Answer {
    Answer::unpack(unsafe {
        wharftoken_sequence(
            record.as_ptr(),
            record.len(),
            decisions.as_ptr(),
            decisions.len(),
            places.as_mut_ptr(),
            places.len(),
        )
    })
}

/// A full list of decisions, and its value and ceiling. Refused as 12, 11, 13.
pub fn search(record: &[u8], tolerance: u32, decisions: &mut [u8], totals: &mut [u32]) -> Answer {
    Answer::unpack(unsafe {
        wharftoken_search(
            record.as_ptr(),
            record.len(),
            tolerance,
            decisions.as_mut_ptr(),
            decisions.len(),
            totals.as_mut_ptr(),
            totals.len(),
        )
    })
}

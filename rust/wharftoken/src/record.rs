//! The record of a sheet.

use crate::raw;

/// A sheet as arrays of the sheet's limits, with counts of the used entries. Its bytes are the
/// record that the library reads and writes.
///
/// [`read`](crate::read) makes one. One that you make or change yourself is refused as 12 wherever
/// no accepted sheet gives it; unused entries are zero.
#[repr(C)]
#[derive(Clone, Debug, PartialEq, Eq)]
pub struct Record {
    /// how many catalogue lines are used
    pub catalogue_lines: u16,
    /// how many options are subscribed
    pub option_count: u16,
    /// how many orderings are asked for
    pub ordering_count: u16,
    /// the weight of each option, in slot order
    pub weights: [u16; 32],
    /// the weight of each ordering, in slot order
    pub ordering_weights: [u16; 64],
    /// `b'C'` or `b'X'` of each catalogue line
    pub letters: [u8; 512],
    /// the first catalogue number of each catalogue line
    pub befores: [u8; 512],
    /// the second catalogue number of each catalogue line
    pub afters: [u8; 512],
    /// the catalogue number of each option, in slot order
    pub numbers: [u8; 32],
    /// the catalogue number that each ordering puts first
    pub firsts: [u8; 64],
    /// the catalogue number that each ordering puts after it
    pub seconds: [u8; 64],
}

// No padding: the fields fill the bytes.
const _: () = assert!(size_of::<Record>() == raw::RECORD);

impl Record {
    /// The record of the sheet `T 1 1 1`: everything zero.
    pub const EMPTY: Record = Record {
        catalogue_lines: 0,
        option_count: 0,
        ordering_count: 0,
        weights: [0; 32],
        ordering_weights: [0; 64],
        letters: [0; 512],
        befores: [0; 512],
        afters: [0; 512],
        numbers: [0; 32],
        firsts: [0; 64],
        seconds: [0; 64],
    };

    /// The bytes of the record.
    pub fn as_bytes(&self) -> &[u8; raw::RECORD] {
        // SAFETY: same size, no padding, and bytes need no alignment.
        unsafe { &*std::ptr::from_ref(self).cast() }
    }

    /// The record that has these bytes.
    pub fn from_bytes(bytes: [u8; raw::RECORD]) -> Record {
        // SAFETY: same size, and every field takes any bits.
        unsafe { std::mem::transmute(bytes) }
    }
}

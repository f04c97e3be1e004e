//! Order sheets of boat control heads: reading, writing, limits, sequences, the best relaxation
//! and its report, through the library that is proved in Rattle.
//!
//! ```
//! let sheet_p = b"C 3 1\nX 2 4\nF 1 5\nF 2 3\nF 3 4\nF 4 2\nU 1 3 6\nU 2 1 1\nT 3 7 9\n";
//! let report = wharftoken::report(sheet_p);
//! print!("{}", String::from_utf8_lossy(&report));
//! assert_eq!(report, b"V 13 13\nS 1 2\nS 2 3\nS 3 1\nD 4\nR 1 3\n");
//! ```
//!
//! A sheet is read once into a [`Record`]; everything else is asked of the record.
//!
//! ```
//! use wharftoken::{Decision, Decisions};
//! # fn main() -> Result<(), wharftoken::Refusal> {
//! let record = wharftoken::read(b"X 1 2\nF 2 5\nF 1 5\nT 2 4 4\n")?;
//! let found = wharftoken::search(&record, 0)?;
//! assert_eq!((found.value, found.ceiling), (5, 5));
//! assert_eq!(found.decisions.options[0], Decision::Kept); // slot 1: option 2
//! let sequence = wharftoken::sequence(&record, &found.decisions)?;
//! assert_eq!(sequence.option_at(1), Some(2)); // place 1: option 2
//! let limits = wharftoken::limits(&record, &Decisions::OPEN)?;
//! assert_eq!((limits.lower, limits.upper), (0, 10));
//! # Ok(())
//! # }
//! ```
//!
//! What is refused says where:
//!
//! ```
//! let refusal = wharftoken::read(b"F 5\nT 1 2 2\n").unwrap_err();
//! assert_eq!((refusal.number, refusal.line, refusal.column), (4, 1, 4));
//! ```
//!
//! Lines, columns, slots and places count from 1 (`docs/PLACES.md`); arrays here are indexed from
//! 0 as always in Rust, so the entry of slot 1 has index 0.
//!
//! The proofs speak of the library. That the declarations in [`raw`] are those of the library is
//! not proved but tested: `tests/` compares every function with an independent reading.

#[cfg(not(target_endian = "little"))]
compile_error!("a record is little-endian, and so must be the machine");

mod answer;
mod decisions;
mod limits;
pub mod raw;
mod record;
mod report;
mod search;
mod sequence;
mod text;

pub use answer::{Answer, Refusal};
pub use decisions::{Decision, Decisions};
pub use limits::{ItemLimits, Limits, limits};
pub use record::Record;
pub use report::report;
pub use search::{Found, MOST_TOLERANCE, search};
pub use sequence::{Sequence, sequence};
pub use text::{read, write};

//! The twin: order sheets, limits, sequences and best relaxations, written from the requirements
//! alone and as plainly as they can be put. It is slow on purpose: shapes are lists of
//! alternatives, forced decisions are made until none is left, and the best relaxation is the
//! first of the greatest value in a list of every choice.
//!
//! Slots count from 0 inside (they are indices of arrays) and from 1 wherever a number leaves
//! the program; lines, columns and places count from 1 everywhere.
#![forbid(unsafe_code)]

mod answer;
mod best;
mod bytes;
pub mod damage;
mod decisions;
mod forced;
mod lent;
mod limits;
pub mod random;
mod reading;
mod record;
mod refused;
mod relaxation;
mod report;
mod sequence;
mod shape;
mod sheet;
mod writing;

pub use answer::{Answer, Fault, MOST_TOLERANCE, check_answer};
pub use best::{MOST_ENUMERATED, best, every_consistent};
pub use decisions::{Decision, Decisions};
pub use forced::{Forced, forced};
pub use lent::{limits_of, report_into, search_refused, sequence_of, write_into};
pub use limits::{ItemLimits, Limits, limits};
pub use reading::read;
pub use record::{Record, is_recorded};
pub use refused::Refused;
pub use relaxation::{is_consistent, is_relaxation, value};
pub use report::{refusal_text, report, report_text};
pub use sequence::sequence;
pub use sheet::{CatalogueLine, Letter, Ordering, Sheet, Subscription};
pub use writing::write;

//! The proved library against the twin, an independent reading of the requirements that looks at
//! every choice: the same bytes in, the same answers and the same lent bytes out.
//!
//! Each test prints its seeds, and a failure names the seed that failed.

mod buffers;
mod c_header;
mod expected;
mod large;
mod lent;
mod limits;
mod lists;
mod places;
mod records;
mod round_trips;
mod search;
mod sequence;
mod tally;
mod texts;
mod tolerances;
mod wrappers;

use std::ops::Range;
use twin::Sheet;

/// Prints the seeds of a test and hands them out.
fn seeds(test: &str, seeds: Range<u64>) -> Range<u64> {
    println!("{test}: seeds {} to {}", seeds.start, seeds.end - 1);
    seeds
}

/// The seed and the text of a sheet, as a failure shows them.
fn shown(seed: u64, sheet: &Sheet) -> String {
    let text = twin::write(sheet);
    format!("seed {seed}\n{}", String::from_utf8_lossy(&text))
}

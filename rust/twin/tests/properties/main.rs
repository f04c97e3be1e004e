//! Properties on sheets drawn from seeds. Each test prints its seeds, and a failure names the
//! seed that failed.

mod best;
mod every;
mod formulas;
mod limits;
mod reading;
mod records;
mod second_reader;
mod sequence;

use std::ops::Range;

/// Prints the seeds of a test and hands them out.
fn seeds(test: &str, seeds: Range<u64>) -> Range<u64> {
    println!("{test}: seeds {} to {}", seeds.start, seeds.end - 1);
    seeds
}

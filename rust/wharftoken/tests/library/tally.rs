//! Counts of what a test met, so that none is passed by meeting nothing.

use std::collections::BTreeMap;

/// How often a test met each kind of case.
pub struct Tally {
    test: &'static str,
    counts: BTreeMap<&'static str, usize>,
}

impl Tally {
    pub fn new(test: &'static str) -> Tally {
        Tally {
            test,
            counts: BTreeMap::new(),
        }
    }

    /// Counts a case of this kind if it is one.
    pub fn count(&mut self, kind: &'static str, met: bool) {
        *self.counts.entry(kind).or_default() += usize::from(met);
    }

    /// Prints all counts, and fails if there are not so many kinds, or one of them was met less
    /// often than `fewest`.
    pub fn assert_each(&self, kinds: usize, fewest: usize) {
        for (kind, count) in &self.counts {
            println!("{}: {kind}: {count}", self.test);
        }
        let test = self.test;
        assert_eq!(self.counts.len(), kinds, "{test}: kinds that were met");
        for (kind, &count) in &self.counts {
            assert!(count >= fewest, "{test}: {kind}: met {count} times only");
        }
    }
}

//! The searches that are timed, each behind the same small trait.

use crate::problem::{Best, Problem};
use crate::{plain, strong};
use twin::Sheet;
use wharftoken::Decision;

/// A search of the tie rule's best.
pub trait Search {
    /// From the sheet as read to the decisions; the second number counts nodes, where they can be seen.
    fn best(&self) -> (Best, u64);
}

/// The names of the searches, in the order in which they are timed.
pub const NAMES: [&str; 3] = [STRONG, LIBRARY, PLAIN];
pub const STRONG: &str = "twin";
pub const LIBRARY: &str = "library";
pub const PLAIN: &str = "plain";

/// The search of that name, ready for a sheet.
pub fn named(name: &str, sheet: &Sheet) -> Box<dyn Search> {
    match name {
        STRONG => Box::new(Strong(sheet.clone())),
        PLAIN => Box::new(Plain(sheet.clone())),
        _ => Box::new(Library::of(sheet)),
    }
}

struct Strong(Sheet);

impl Search for Strong {
    fn best(&self) -> (Best, u64) {
        strong::best(&Problem::of(&self.0))
    }
}

struct Plain(Sheet);

impl Search for Plain {
    fn best(&self) -> (Best, u64) {
        plain::best(&Problem::of(&self.0))
    }
}

/// The proved library; it counts no nodes.
struct Library(wharftoken::Record);

impl Library {
    fn of(sheet: &Sheet) -> Library {
        let text = twin::write(sheet);
        Library(wharftoken::read(&text).expect("drawn sheets are accepted"))
    }
}

impl Search for Library {
    fn best(&self) -> (Best, u64) {
        let found = wharftoken::search(&self.0, 0).expect("read records are searched");
        let best = Best {
            value: found.value,
            kept: kept(&found.decisions.options) as u32,
            kept_orderings: kept(&found.decisions.orderings),
        };
        (best, 0)
    }
}

fn kept(decisions: &[Decision]) -> u64 {
    let bits = decisions.iter().enumerate();
    bits.filter(|(_, decision)| **decision == Decision::Kept)
        .fold(0, |set, (slot, _)| set | 1 << slot)
}

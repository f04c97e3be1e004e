//! The classes of sheets that are timed, with their seeds.

use crate::built;
use crate::drawn::{Drawn, Types};
use crate::random::Random;
use twin::Sheet;

#[derive(Clone, Copy)]
enum Kind {
    Drawn(Drawn),
    Built(fn(&mut Random) -> Sheet),
}

/// Sheets of one kind.
#[derive(Clone, Copy)]
pub struct Class {
    pub name: &'static str,
    pub sheets: usize,
    pub seed: u64,
    kind: Kind,
}

impl Class {
    /// The sheet with this number, from 0.
    pub fn sheet(&self, number: usize) -> Sheet {
        let mut random = Random::of_sheet(self.seed, number);
        match self.kind {
            Kind::Drawn(drawn) => drawn.sheet(&mut random),
            Kind::Built(build) => build(&mut random),
        }
    }
}

/// M-110's own: 50 options, 250 pairs, 10 options, 10 orderings, weights 1 to 4.
const M110: Drawn = Drawn {
    catalogue: 50,
    pairs: 250,
    types: Types::Precedences,
    among_subscribed: false,
    options: 10,
    orderings: 10,
    both_ways: false,
    weight: 4,
};

/// As large as a sheet may be, over the same catalogue.
const FULL: Drawn = Drawn {
    options: 32,
    orderings: 64,
    ..M110
};

/// Source 001's denser catalogue that a sheet can hold.
const DENSE: Drawn = Drawn {
    pairs: 500,
    types: Types::Mixed,
    ..FULL
};

const BARE: Drawn = Drawn { pairs: 0, ..FULL };

const BOTH_WAYS: Drawn = Drawn {
    both_ways: true,
    ..BARE
};

/// A precedence one way or the other between every two options.
const TOURNAMENT: Drawn = Drawn {
    pairs: 496,
    among_subscribed: true,
    orderings: 0,
    ..FULL
};

const EXCLUSIONS: Drawn = Drawn {
    pairs: 100,
    types: Types::Exclusions,
    ..TOURNAMENT
};

fn drawn(name: &'static str, sheets: usize, seed: u64, drawn: Drawn) -> Class {
    let kind = Kind::Drawn(drawn);
    Class {
        name,
        sheets,
        seed,
        kind,
    }
}

fn built(name: &'static str, sheets: usize, seed: u64, build: fn(&mut Random) -> Sheet) -> Class {
    let kind = Kind::Built(build);
    Class {
        name,
        sheets,
        seed,
        kind,
    }
}

/// Every class, in the table's order.
pub fn classes() -> Vec<Class> {
    let few = |d: Drawn| Drawn { orderings: 32, ..d };
    vec![
        drawn("m110", 200, 110, M110),
        drawn("250-pairs-32-orderings", 20, 201, few(FULL)),
        drawn("250-pairs-64-orderings", 20, 202, FULL),
        drawn("500-pairs-32-orderings", 20, 203, few(DENSE)),
        drawn("500-pairs-64-orderings", 20, 204, DENSE),
        drawn("no-catalogue-32-orderings", 20, 205, few(BARE)),
        drawn("no-catalogue-64-orderings", 20, 206, BARE),
        drawn("no-catalogue-both-ways", 20, 207, BOTH_WAYS),
        drawn("exclusions-only", 20, 208, EXCLUSIONS),
        drawn("catalogue-tournament", 20, 209, TOURNAMENT),
        built("ordering-tournament", 20, 210, built::ordering_tournament),
        built("triangles", 20, 211, built::triangles),
        built("drawn-ring", 20, 212, built::drawn_ring),
        built("even-ring", 1, 0, |_| built::ring(|| 1)),
        built("fight", 1, 0, |_| built::fight()),
    ]
}

pub fn class(name: &str) -> Option<Class> {
    classes().into_iter().find(|class| class.name == name)
}

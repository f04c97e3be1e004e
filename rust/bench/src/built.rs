//! Sheets built to be hard: orderings against orderings, with little or no catalogue.

use crate::random::Random;
use twin::{Ordering, Sheet, Subscription};

fn options(count: u8, mut weight: impl FnMut() -> u16) -> Vec<Subscription> {
    (1..=count)
        .map(|number| Subscription {
            number,
            weight: weight(),
        })
        .collect()
}

fn both_ways(a: u8, b: u8, mut weight: impl FnMut() -> u16) -> [Ordering; 2] {
    [(a, b), (b, a)].map(|(before, after)| Ordering {
        before,
        after,
        weight: weight(),
    })
}

fn sheet(options: Vec<Subscription>, orderings: Vec<Ordering>) -> Sheet {
    Sheet {
        catalogue: Vec::new(),
        options,
        orderings,
    }
}

/// 32 options of weight 1 with `U 1 2 9` and `U 2 1 9`.
pub fn fight() -> Sheet {
    sheet(options(32, || 1), both_ways(1, 2, || 9).to_vec())
}

/// 32 options, and an ordering each way between neighbours round a ring.
pub fn ring(mut weight: impl FnMut() -> u16) -> Sheet {
    let all = options(32, &mut weight);
    let orderings = (1..=32).flat_map(|i| both_ways(i, i % 32 + 1, &mut weight));
    let orderings = orderings.collect();
    sheet(all, orderings)
}

/// The same ring with weights by chance.
pub fn drawn_ring(random: &mut Random) -> Sheet {
    ring(|| random.weight(9))
}

/// Ten triangles, an ordering each way on every side.
pub fn triangles(random: &mut Random) -> Sheet {
    let mut weight = || random.weight(9);
    let all = options(30, &mut weight);
    let sides = (0..10).flat_map(|t| [(1, 2), (2, 3), (3, 1)].map(|(a, b)| (3 * t + a, 3 * t + b)));
    let orderings = sides.flat_map(|(a, b)| both_ways(a, b, &mut weight));
    let orderings = orderings.collect();
    sheet(all, orderings)
}

/// 11 options, and an ordering one way or the other between every two.
pub fn ordering_tournament(random: &mut Random) -> Sheet {
    let all = options(11, || random.weight(9));
    let mut orderings = Vec::new();
    for a in 1..=11 {
        for b in a + 1..=11 {
            let [one, other] = both_ways(a, b, || random.weight(9));
            orderings.push(if random.below(2) == 0 { one } else { other });
        }
    }
    sheet(all, orderings)
}

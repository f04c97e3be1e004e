//! The table of a run.

use crate::classes::Class;
use crate::others::Others;
use crate::run::Results;
use crate::search::{LIBRARY, PLAIN, STRONG};
use crate::timing::Taken;
use std::time::Duration;

pub const HEAD: &str = "\
| Class | Sheets | Twin's nodes, median and most | Twin, median and worst | Library, median and worst | Ratio | Plain, median and worst | Program, median and worst | clasp, median and worst | Stack of twin and library | Different |
|---|---|---|---|---|---|---|---|---|---|---|";

/// A time in the unit that suits it.
fn shown(time: Duration) -> String {
    let micros = time.as_secs_f64() * 1e6;
    if micros < 1e3 {
        format!("{micros:.1} µs")
    } else if micros < 1e6 {
        format!("{:.2} ms", micros / 1e3)
    } else {
        format!("{:.2} s", micros / 1e6)
    }
}

/// Median and worst, and on how many sheets it ended where that is not all of them.
fn spread(times: &[Duration], sheets: usize) -> String {
    let mut sorted = times.to_vec();
    sorted.sort();
    let Some(worst) = sorted.last() else {
        return String::from("not ended");
    };
    let median = sorted[(sorted.len() - 1) / 2];
    let ended = sorted.len();
    let short = if ended < sheets {
        format!(" ({ended} of {sheets} ended)")
    } else {
        String::new()
    };
    format!("{}, {}{short}", shown(median), shown(*worst))
}

/// What one search took on the sheets that it ended, in order.
fn of<'a>(results: &'a Results, search: &'a str) -> impl Iterator<Item = (usize, &'a Taken)> {
    let own = results.iter().filter(move |((name, _), _)| name == search);
    own.map(|((_, sheet), taken)| (*sheet, taken))
}

fn times(results: &Results, search: &str) -> Vec<Duration> {
    of(results, search).map(|(_, taken)| taken.time).collect()
}

fn nodes(results: &Results) -> String {
    let mut nodes: Vec<u64> = of(results, STRONG).map(|(_, taken)| taken.nodes).collect();
    nodes.sort();
    match nodes.last() {
        Some(most) => format!("{}, {most}", nodes[(nodes.len() - 1) / 2]),
        None => String::from("–"),
    }
}

/// The library's time over the twin's, summed over the sheets that both ended.
fn ratio(results: &Results) -> String {
    let (mut library, mut twin) = (0.0, 0.0);
    for (sheet, taken) in of(results, LIBRARY) {
        if let Some(other) = results.get(&(STRONG.to_string(), sheet)) {
            library += taken.time.as_secs_f64();
            twin += other.time.as_secs_f64();
        }
    }
    if twin > 0.0 {
        format!("{:.2}", library / twin)
    } else {
        String::from("–")
    }
}

fn stack(results: &Results) -> String {
    let most = |search| of(results, search).map(|(_, taken)| taken.stack).max();
    let shown = |bytes: Option<usize>| bytes.map_or(String::from("–"), |b| format!("{b}"));
    format!("{}, {}", shown(most(STRONG)), shown(most(LIBRARY)))
}

/// The answers of any search or program that are not the twin's.
pub fn differences(results: &Results, others: &[&Others]) -> usize {
    let twin = |sheet: usize| {
        results
            .get(&(STRONG.to_string(), sheet))
            .map(|taken| taken.best)
    };
    let searched = results
        .iter()
        .filter(|((_, sheet), taken)| twin(*sheet) != Some(taken.best));
    let told = others.iter().flat_map(|other| &other.values);
    let told = told.filter(|(sheet, value)| twin(*sheet).map(|best| best.value) != Some(*value));
    searched.count() + told.count()
}

pub fn row(
    class: Class,
    results: &Results,
    program: Option<&Others>,
    clasp: Option<&Others>,
) -> String {
    let own = |search| spread(&times(results, search), class.sheets);
    let other = |others: Option<&Others>, missing: &str| {
        others.map_or(String::from(missing), |o| spread(&o.times, class.sheets))
    };
    let both: Vec<&Others> = program.into_iter().chain(clasp).collect();
    format!(
        "| {} | {} | {} | {} | {} | {} | {} | {} | {} | {} | {} |",
        class.name,
        class.sheets,
        nodes(results),
        own(STRONG),
        own(LIBRARY),
        ratio(results),
        own(PLAIN),
        other(program, "not built"),
        other(clasp, "not installed"),
        stack(results),
        differences(results, &both),
    )
}

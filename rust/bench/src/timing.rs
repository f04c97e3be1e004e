//! The worker: solves the sheets of one class by each search in turn, and says what each took, line by line.

use crate::classes::Class;
use crate::problem::Best;
use crate::search::named;
use crate::stack;
use std::io::{self, Write};
use std::time::{Duration, Instant};

/// How long short searches are repeated; the least time counts.
const REPEATED: Duration = Duration::from_millis(10);
/// A search that takes less is repeated twice in any case.
const SHORT: Duration = Duration::from_millis(200);

/// What one search took on one sheet.
#[derive(Clone, Copy, Debug)]
pub struct Taken {
    pub time: Duration,
    pub nodes: u64,
    pub stack: usize,
    pub best: Best,
}

/// A line that the worker prints: a search begins a sheet, or has ended it.
#[derive(Clone, Debug)]
pub enum Line {
    Begun {
        search: String,
        sheet: usize,
    },
    Ended {
        search: String,
        sheet: usize,
        taken: Taken,
    },
}

impl Line {
    pub fn print(&self) -> String {
        match self {
            Line::Begun { search, sheet } => format!("begun {search} {sheet}"),
            Line::Ended {
                search,
                sheet,
                taken,
            } => format!(
                "ended {search} {sheet} {} {} {} {} {} {}",
                taken.time.as_nanos(),
                taken.nodes,
                taken.stack,
                taken.best.value,
                taken.best.kept,
                taken.best.kept_orderings,
            ),
        }
    }

    pub fn parse(line: &str) -> Option<Line> {
        let words: Vec<&str> = line.split(' ').collect();
        let number = |at: usize| words.get(at)?.parse::<u64>().ok();
        let search = words.get(1)?.to_string();
        let sheet = number(2)? as usize;
        if words[0] == "begun" {
            return Some(Line::Begun { search, sheet });
        }
        let best = Best {
            value: number(6)? as u32,
            kept: number(7)? as u32,
            kept_orderings: number(8)?,
        };
        let taken = Taken {
            time: Duration::from_nanos(number(3)?),
            nodes: number(4)?,
            stack: number(5)? as usize,
            best,
        };
        Some(Line::Ended {
            search,
            sheet,
            taken,
        })
    }
}

/// Solves each sheet from number `from` on by each of the searches.
pub fn work(class: Class, from: usize, searches: &[String]) -> io::Result<()> {
    let mut out = io::stdout().lock();
    for sheet in from..class.sheets {
        let drawn = class.sheet(sheet);
        for search in searches {
            let begun = Line::Begun {
                search: search.clone(),
                sheet,
            };
            writeln!(out, "{}", begun.print())?;
            out.flush()?;
            let taken = take(search, &drawn);
            let ended = Line::Ended {
                search: search.clone(),
                sheet,
                taken,
            };
            writeln!(out, "{}", ended.print())?;
            out.flush()?;
        }
    }
    Ok(())
}

/// The first run is on a painted stack.
fn take(search: &str, sheet: &twin::Sheet) -> Taken {
    let ready = named(search, sheet);
    let mut first = (Duration::MAX, Best::default(), 0);
    let stack = stack::depth(|| {
        let began = Instant::now();
        let (best, nodes) = ready.best();
        first = (began.elapsed(), best, nodes);
    });
    let (mut time, best, nodes) = first;
    let all = Instant::now();
    let mut runs = 1;
    while time < SHORT && (runs < 3 || all.elapsed() < REPEATED) {
        let one = Instant::now();
        std::hint::black_box(ready.best());
        time = time.min(one.elapsed());
        runs += 1;
    }
    Taken {
        time,
        nodes,
        stack,
        best,
    }
}

//! Other programs on the same sheets: the whole reporting program, and clasp where it is installed.

use crate::classes::Class;
use crate::process::run;
use std::path::{Path, PathBuf};
use std::process::Command;
use std::time::Duration;
use twin::Sheet;

/// What a program took on the sheets that it ended in time, and the values it gave.
pub struct Others {
    pub times: Vec<Duration>,
    pub values: Vec<(usize, u32)>,
}

/// The reporting program, as `rt ci` builds it.
pub fn program() -> Option<PathBuf> {
    let built = Path::new(env!("CARGO_MANIFEST_DIR")).join("../../crates/wharftoken/out/wharftoken");
    built.is_file().then_some(built)
}

/// Whether both halves of the other solver are there.
pub fn clasp_is_installed() -> bool {
    ["gringo", "clasp"].iter().all(|name| {
        let mut command = Command::new(name);
        let asked = command.arg("--version").output();
        asked.is_ok_and(|answer| answer.status.success())
    })
}

/// Each sheet by one process; from the first that does not end in time on, nothing is asked.
pub fn asked(
    class: Class,
    limit: Duration,
    ask: impl Fn(&Sheet, Duration) -> Option<(Duration, u32)>,
) -> Others {
    let mut others = Others {
        times: Vec::new(),
        values: Vec::new(),
    };
    for number in 0..class.sheets {
        let Some((time, value)) = ask(&class.sheet(number), limit) else {
            return others;
        };
        others.times.push(time);
        others.values.push((number, value));
    }
    others
}

/// The value that the whole program reports.
pub fn report(program: &Path, sheet: &Sheet, limit: Duration) -> Option<(Duration, u32)> {
    let (time, written) = run(&mut Command::new(program), twin::write(sheet), limit)?;
    let text = String::from_utf8(written).ok()?;
    let value = text.strip_prefix("V ")?.split(' ').next()?;
    Some((time, value.parse().ok()?))
}

/// The best value by gringo and clasp: the sheet as facts, `best.lp` beside them, the least loss asked for.
pub fn clasp(sheet: &Sheet, limit: Duration) -> Option<(Duration, u32)> {
    let rules = Path::new(env!("CARGO_MANIFEST_DIR")).join("best.lp");
    let mut ground = Command::new("gringo");
    let (grounding, program) = run(ground.arg(rules).arg("-"), facts(sheet), limit)?;
    let mut solve = Command::new("clasp");
    let (solving, written) = run(solve.args(["--outf=0", "-q2,1"]), program, limit)?;
    let text = String::from_utf8(written).ok()?;
    if !text.contains("OPTIMUM FOUND") {
        return None;
    }
    let lost = text
        .lines()
        .filter_map(|line| line.strip_prefix("Optimization : "))
        .next_back()?;
    let lost: u32 = lost.trim().parse().ok()?;
    Some((grounding + solving, sheet.weight_of_everything() - lost))
}

fn facts(sheet: &Sheet) -> Vec<u8> {
    let mut text = String::new();
    for (slot, option) in sheet.options.iter().enumerate() {
        text += &format!("option({slot},{}).\n", option.weight);
    }
    for (slot, ordering) in sheet.orderings.iter().enumerate() {
        let (a, b) = sheet.ends(ordering);
        text += &format!("ordering({slot},{a},{b},{}).\n", ordering.weight);
    }
    for (a, b) in sheet.precedences() {
        text += &format!("before({a},{b}).\n");
    }
    text.into_bytes()
}

//! Times the proved search beside a plain Rust twin of it. `docs/BENCH.md` says how it is run and what it measured.

#[cfg(test)]
mod agrees;
mod built;
mod classes;
mod drawn;
mod node;
mod others;
mod plain;
mod problem;
mod process;
mod random;
mod run;
mod search;
mod stack;
mod strong;
mod table;
mod timing;

use classes::{Class, class, classes};
use std::process::ExitCode;
use std::time::Duration;
use std::{env, fs, io};

const HELP: &str = "\
bench [SECONDS [CLASS..]]   times every class, or those named; a search gets so many seconds (10) a sheet
bench sheets FOLDER         writes every sheet as a file";

fn main() -> ExitCode {
    let words: Vec<String> = env::args().skip(1).collect();
    let words: Vec<&str> = words.iter().map(String::as_str).collect();
    let done = match words[..] {
        ["sheets", folder] => write_sheets(folder),
        ["work", name, from, ref searches @ ..] => work(name, from, searches),
        ["help" | "--help", ..] => {
            println!("{HELP}");
            Ok(true)
        }
        [] => time_all(10, &[]),
        [seconds, ref names @ ..] => time_all(seconds.parse().unwrap_or(10), names),
    };
    match done {
        Ok(true) => ExitCode::SUCCESS,
        Ok(false) => ExitCode::FAILURE,
        Err(error) => {
            eprintln!("bench: {error}");
            ExitCode::FAILURE
        }
    }
}

fn write_sheets(folder: &str) -> io::Result<bool> {
    fs::create_dir_all(folder)?;
    for class in classes() {
        for number in 0..class.sheets {
            let path = format!("{folder}/{}-{number:03}.sheet", class.name);
            fs::write(path, twin::write(&class.sheet(number)))?;
        }
    }
    Ok(true)
}

fn work(name: &str, from: &str, searches: &[&str]) -> io::Result<bool> {
    let searches: Vec<String> = searches.iter().map(|word| word.to_string()).collect();
    let (Some(class), Ok(from)) = (class(name), from.parse()) else {
        return Ok(false);
    };
    timing::work(class, from, &searches)?;
    Ok(true)
}

/// Prints the table; false where an answer was different.
fn time_all(seconds: u64, names: &[&str]) -> io::Result<bool> {
    let limit = Duration::from_secs(seconds);
    let wanted = |class: &Class| names.is_empty() || names.contains(&class.name);
    println!("{}", table::HEAD);
    let mut same = true;
    for class in classes().into_iter().filter(wanted) {
        same &= time_class(class, limit);
    }
    Ok(same)
}

fn time_class(class: Class, limit: Duration) -> bool {
    let results = run::timed(class, limit);
    let program = others::program().map(|path| {
        let ask = |sheet: &_, limit| others::report(&path, sheet, limit);
        others::asked(class, limit, ask)
    });
    let clasp = others::clasp_is_installed().then(|| others::asked(class, limit, others::clasp));
    println!(
        "{}",
        table::row(class, &results, program.as_ref(), clasp.as_ref())
    );
    let both: Vec<_> = program.iter().chain(&clasp).collect();
    table::differences(&results, &both) == 0
}

//! One class, timed by a worker process: a search that does not end in time is left out of the rest of the class.

use crate::classes::Class;
use crate::search::NAMES;
use crate::timing::{Line, Taken};
use std::collections::BTreeMap;
use std::env;
use std::io::{BufRead, BufReader};
use std::process::{Child, Command, Stdio};
use std::sync::mpsc::{self, Receiver, RecvTimeoutError};
use std::thread;
use std::time::Duration;

/// What each search took on each sheet that it ended.
pub type Results = BTreeMap<(String, usize), Taken>;

/// The results of a class.
pub fn timed(class: Class, limit: Duration) -> Results {
    let mut results = Results::new();
    let mut searches: Vec<String> = NAMES.map(String::from).to_vec();
    let mut from = 0;
    while from < class.sheets && !searches.is_empty() {
        match part(class, from, &searches, limit, &mut results) {
            None => break,
            Some((search, sheet)) => {
                searches.retain(|one| *one != search);
                from = sheet;
            }
        }
    }
    results
}

/// Runs a worker to its end, or until one search takes too long on a sheet: these two are given back.
fn part(
    class: Class,
    from: usize,
    searches: &[String],
    limit: Duration,
    results: &mut Results,
) -> Option<(String, usize)> {
    let mut worker = worker(class, from, searches);
    let lines = lines(&mut worker);
    let mut at = None;
    let stuck = loop {
        match lines.recv_timeout(limit) {
            Ok(Line::Begun { search, sheet }) => at = Some((search, sheet)),
            Ok(Line::Ended {
                search,
                sheet,
                taken,
            }) => {
                results.insert((search, sheet), taken);
                at = None;
            }
            // A worker that dies in the middle of a sheet has not ended it either.
            Err(RecvTimeoutError::Timeout | RecvTimeoutError::Disconnected) => break at,
        }
    };
    worker.kill().ok();
    worker.wait().ok();
    stuck
}

fn worker(class: Class, from: usize, searches: &[String]) -> Child {
    let program = env::current_exe().expect("this program has a path");
    let mut command = Command::new(program);
    command.arg("work").arg(class.name).arg(from.to_string());
    command.args(searches).stdout(Stdio::piped());
    command.spawn().expect("this program runs itself")
}

fn lines(worker: &mut Child) -> Receiver<Line> {
    let (say, said) = mpsc::channel();
    let stdout = worker.stdout.take().expect("the worker's output is piped");
    thread::spawn(move || {
        for line in BufReader::new(stdout).lines().map_while(Result::ok) {
            if let Some(line) = Line::parse(&line)
                && say.send(line).is_err()
            {
                return;
            }
        }
    });
    said
}

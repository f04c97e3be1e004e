//! Programs run as processes, each within a limit of time.

use std::io::{Read, Write};
use std::process::{Child, Command, Stdio};
use std::sync::mpsc;
use std::thread;
use std::time::{Duration, Instant};

/// Everything a program writes, and the time from its start to its last byte; nothing where it did not end in time.
pub fn run(command: &mut Command, input: Vec<u8>, limit: Duration) -> Option<(Duration, Vec<u8>)> {
    let began = Instant::now();
    let mut child = start(command)?;
    let mut stdin = child.stdin.take()?;
    let mut stdout = child.stdout.take()?;
    // A program that ends early need not read its input.
    let fed = thread::spawn(move || stdin.write_all(&input).ok());
    let (say, said) = mpsc::channel();
    thread::spawn(move || {
        let mut written = Vec::new();
        let ended = stdout.read_to_end(&mut written).is_ok();
        say.send((ended, began.elapsed(), written)).ok()
    });
    let answer = said.recv_timeout(limit);
    child.kill().ok();
    child.wait().ok();
    fed.join().ok();
    let (ended, time, written) = answer.ok()?;
    ended.then_some((time, written))
}

fn start(command: &mut Command) -> Option<Child> {
    let command = command.stdin(Stdio::piped()).stdout(Stdio::piped());
    command.stderr(Stdio::null()).spawn().ok()
}

//! The command line tool: what it prints for a sheet on standard input.

use std::io::Write;
use std::process::{Command, Output, Stdio};

const P: &str = "C 3 1\nX 2 4\nF 1 5\nF 2 3\nF 3 4\nF 4 2\nU 1 3 6\nU 2 1 1\nT 3 7 9\n";

/// What the tool does with these words and this input.
fn run(words: &[&str], input: &str) -> Output {
    let mut tool = Command::new(env!("CARGO_BIN_EXE_twin"))
        .args(words)
        .stdin(Stdio::piped())
        .stdout(Stdio::piped())
        .stderr(Stdio::piped())
        .spawn()
        .expect("the tool starts");
    let mut standard_input = tool.stdin.take().expect("a pipe");
    standard_input
        .write_all(input.as_bytes())
        .expect("the tool reads all");
    drop(standard_input);
    tool.wait_with_output().expect("the tool ends")
}

fn prints(words: &[&str], input: &str, expected: &str) {
    let output = run(words, input);
    assert!(output.status.success(), "{words:?}");
    assert_eq!(
        String::from_utf8_lossy(&output.stdout),
        expected,
        "{words:?}"
    );
}

#[test]
fn a_sheet_alone_gives_its_report() {
    prints(&[], P, "V 13 13\nS 1 2\nS 2 3\nS 3 1\nD 4\nR 1 3\n");
    prints(&[], "", "E 2 0 0\n");
    prints(&[], &"x".repeat(1_000_000), "E 1 0 0\n");
}

#[test]
fn read_says_whether_a_sheet_is_accepted() {
    prints(&["read"], P, "accepted\n");
    prints(&["read"], "F 5\nT 1 2 2\n", "E 4 1 4\n");
}

#[test]
fn limits_are_one_number_a_field() {
    let open = "whole 0 15\n\
        option 1 o 5 15 0 9\n\
        option 2 o 3 13 0 11\n\
        option 3 o 4 15 0 11\n\
        option 4 o 2 11 0 13\n\
        ordering 1 d 0 0 0 0\n\
        ordering 2 o 9 13 0 14\n";
    prints(&["limits", "oooooo"], P, open);
    prints(&["limits", "okokoo"], P, "contradiction\n");
}

#[test]
fn sequences_are_a_place_and_an_option_a_line() {
    prints(&["sequence", "kkkddk"], P, "1 2\n2 3\n3 1\n");
    prints(&["sequence", "kkkkdd"], P, "E 15 0 0\n");
    prints(&["sequence", "kkkkdo"], P, "E 14 0 0\n");
}

#[test]
fn what_it_cannot_do_fails_with_a_message() {
    let many: String = (1..=17).map(|number| format!("F {number} 1\n")).collect();
    let many = many + "T 1 18 18\n";
    let wrong: [(&[&str], &str); 4] = [
        (&["limits", "ooo"], P),
        (&["limits", "oooooz"], P),
        (&["other"], P),
        (&[], &many),
    ];
    for (words, input) in wrong {
        let output = run(words, input);
        assert!(!output.status.success(), "{words:?}");
        assert!(
            output.stdout.is_empty() && !output.stderr.is_empty(),
            "{words:?}"
        );
    }
}

//! `docs/PROMISES.md` is what a reader goes by: every file, theorem and edit that it names is there, and
//! its count of lines to believe is right.

use std::fs;
use std::path::{Path, PathBuf};

fn project() -> PathBuf {
    PathBuf::from(env!("CARGO_MANIFEST_DIR")).join("../..")
}

fn promises() -> String {
    fs::read_to_string(project().join("docs/PROMISES.md")).expect("docs/PROMISES.md is text")
}

/// The words between backticks in a line, each with the text that follows it up to the next one.
fn quoted(line: &str) -> Vec<(&str, &str)> {
    let parts: Vec<&str> = line.split('`').collect();
    parts[1..]
        .chunks(2)
        .map(|pair| (pair[0], pair.get(1).copied().unwrap_or("")))
        .collect()
}

/// A file's path is told from beside the file named before it, from `crates/`, from the project or from the rules' definitions.
fn resolved(named: &str, before: Option<&Path>) -> Option<PathBuf> {
    let crates = project().join("crates");
    let beside = before.and_then(Path::parent).map(Path::to_path_buf);
    let folders = [crates.clone(), project(), crates.join("rules/specs")];
    beside
        .into_iter()
        .chain(folders)
        .map(|folder| folder.join(named))
        .find(|path| path.is_file())
}

/// Whether a file of definitions or laws declares a name.
fn declares(text: &str, name: &str) -> bool {
    text.lines().any(|line| {
        line.split_whitespace()
            .find(|word| !["pub", "abbrev", "unfoldable", "record", "data"].contains(word))
            == Some(name)
    })
}

/// `option_kept_in`/`_out` names `option_kept_out` too.
fn whole_name(name: &str, last: &str) -> String {
    match (name.strip_prefix('_'), last.rfind('_')) {
        (Some(_), Some(at)) => format!("{}{name}", &last[..at]),
        _ => name.to_string(),
    }
}

#[test]
fn every_file_and_theorem_named_is_there() {
    let text = promises();
    let mut seen = 0;
    for line in text.lines() {
        let mut file: Option<PathBuf> = None;
        let mut naming = false;
        let mut last = String::new();
        for (word, after) in quoted(line) {
            if word.ends_with(".antt") && !word.contains('*') {
                let path = resolved(word, file.as_deref());
                assert!(path.is_some(), "no file {word}, named in: {line}");
                file = path;
                naming = after.starts_with(": ");
                continue;
            }
            if let (true, Some(path)) = (naming, &file) {
                let name = whole_name(word, &last);
                let held = fs::read_to_string(path).expect("a file of text");
                assert!(
                    declares(&held, &name),
                    "{} declares no {name}",
                    path.display()
                );
                seen += 1;
                last = name;
                naming = after == ", " || after == "/" || after == " and ";
            }
        }
    }
    assert!(100 < seen, "only {seen} names were looked up");
}

/// The edits of `crates/*/must-fail`, each with its crate.
fn edits() -> Vec<(String, String)> {
    let mut found = Vec::new();
    for folder in fs::read_dir(project().join("crates"))
        .expect("crates/")
        .flatten()
    {
        let home = folder.file_name().to_string_lossy().to_string();
        for edit in fs::read_dir(folder.path().join("must-fail"))
            .into_iter()
            .flatten()
            .flatten()
        {
            let name = edit
                .path()
                .file_stem()
                .expect("a name")
                .to_string_lossy()
                .to_string();
            found.push((home.clone(), name));
        }
    }
    found
}

#[test]
fn every_edit_is_named_with_its_crate() {
    let text = promises();
    let edits = edits();
    for (home, name) in &edits {
        let quoted = format!("`{name}`");
        let at = text
            .find(&quoted)
            .unwrap_or_else(|| panic!("{home}/{name} is not named"));
        let told = text[at..]
            .split('(')
            .nth(1)
            .and_then(|rest| rest.split(')').next());
        assert_eq!(told, Some(home.as_str()), "the crate of {name}");
    }
    assert!(
        50 < edits.len(),
        "only {} edits were looked up",
        edits.len()
    );
}

#[test]
fn the_lines_to_believe_are_counted() {
    let rules = project().join("crates/rules/specs");
    let text = promises();
    let mut all = 0;
    for line in text.lines() {
        let cells: Vec<&str> = line.split('|').map(str::trim).collect();
        let [_, file, lines, _, _] = cells[..] else {
            continue;
        };
        let Ok(told) = lines.parse::<usize>() else {
            continue;
        };
        let held = fs::read_to_string(rules.join(file.trim_matches('`'))).expect(file);
        assert_eq!(held.lines().count(), told, "lines of {file}");
        all += told;
    }
    assert!(
        text.contains(&format!("In all {all} lines.")),
        "{all} lines in all"
    );
}

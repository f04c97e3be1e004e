//! The C header, its example, and a program that calls every function: compiled strictly, linked
//! with the library, and run.

use crate::{expected, seeds, shown};
use std::fmt::Display;
use std::io::Write;
use std::path::{Path, PathBuf};
use std::process::{Command, Stdio};
use twin::random::small_sheet;
use twin::{Decisions, Record, Sheet};

fn top() -> PathBuf {
    Path::new(env!("CARGO_MANIFEST_DIR")).join("../..")
}

/// Compiles a program; none if there is no C compiler.
fn compiled(source: &str, name: &str) -> Option<PathBuf> {
    let program = Path::new(env!("CARGO_TARGET_TMPDIR")).join(name);
    let output = Command::new("cc")
        .args(["-std=c99", "-Wall", "-Wextra", "-pedantic", "-Werror"])
        .args(["-I", "include", source])
        .args(["crates/exports/out/libexports.a", "-o"])
        .arg(&program)
        .current_dir(top())
        .output();
    match output {
        Err(error) => {
            println!("{name}: skipped, there is no cc: {error}");
            None
        }
        Ok(output) => {
            let said = String::from_utf8_lossy(&output.stderr);
            assert!(output.status.success(), "{said}");
            Some(program)
        }
    }
}

/// What a program prints for a text.
fn printed(program: &Path, text: &[u8]) -> Vec<u8> {
    let mut running = Command::new(program)
        .stdin(Stdio::piped())
        .stdout(Stdio::piped())
        .spawn()
        .expect("the program starts");
    // It stops reading one byte past the longest sheet: a broken pipe is no fault.
    let _ = running.stdin.take().expect("piped").write_all(text);
    let output = running.wait_with_output().expect("the program ends");
    assert!(output.status.success(), "the program ends well");
    output.stdout
}

#[test]
fn the_example_reports() {
    let Some(program) = compiled("include/example.c", "example") else {
        return;
    };
    let file = |name: &str| std::fs::read(top().join("sheets").join(name)).expect("a sample");
    assert_eq!(printed(&program, &file("p.sheet")), file("p.report"));
    assert_eq!(printed(&program, b""), b"E 2 0 0\n");
    assert_eq!(printed(&program, b"F 5\nT 1 2 2\n"), b"E 4 1 4\n");
    assert_eq!(printed(&program, &[b'x'; 9000]), b"E 1 0 0\n");
}

fn line<T: Display>(numbers: &[T]) -> String {
    let words: String = numbers.iter().map(|number| format!("{number} ")).collect();
    words + "\n"
}

/// What `every_function.c` prints for a sheet, by the twin.
fn wanted(sheet: &Sheet) -> String {
    let text = String::from_utf8(twin::write(sheet)).expect("ASCII");
    let trailer = text.rfind('T').expect("a trailer");
    let record = Record::of(sheet).to_bytes();
    let open = Decisions::open().to_bytes();
    let (_, forced, limits) = expected::limits(&record, &open, (96, 386)).expect("open");
    let (best, totals) = expected::best(sheet);
    let (count, places) = expected::sequence(&record, &best, 32).expect("consistent");
    [
        format!("read 0 0 0 0\n{}", &text[..trailer]),
        format!("write 0 0 0 {}\nsame\n", text.len()),
        format!("limits 0 0 0 0\n{}{}", line(&forced), line(&limits)),
        format!("search 0 0 0 0\n{}{}", line(&best), line(&totals)),
        format!("sequence 0 0 0 {count}\n{}", line(&places)),
        "tolerance 11 0 0 0\n".to_string(),
    ]
    .concat()
}

#[test]
fn every_function_from_c() {
    let source = "rust/wharftoken/tests/every_function.c";
    let Some(program) = compiled(source, "every_function") else {
        return;
    };
    for seed in seeds("every function from C", 610_001..610_101) {
        let sheet = small_sheet(seed, 12);
        let output = printed(&program, &twin::write(&sheet));
        let output = String::from_utf8(output).expect("ASCII");
        assert_eq!(output, wanted(&sheet), "{}", shown(seed, &sheet));
    }
}

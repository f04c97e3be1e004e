//! The proved program against the twin: standard input in, the same report out. What is reported
//! is compared at length through the library; here it is the program's own reading and writing.
//!
//! `.ci/run` builds the program first. A difference shows its seed and its text.

use std::io::Write;
use std::path::PathBuf;
use std::process::{Child, Command, Stdio};
use std::time::Duration;

use twin::{damage, random};

fn started() -> Child {
    let folder = PathBuf::from(env!("CARGO_MANIFEST_DIR"));
    Command::new(folder.join("../../crates/wharftoken/out/wharftoken"))
        .stdin(Stdio::piped())
        .stdout(Stdio::piped())
        .spawn()
        .expect("the program is built by `rt ci`, or `rt run` in crates/wharftoken")
}

/// What the program prints for a text that comes in these pieces, with a pause after each.
fn printed(pieces: &[&[u8]], pause: Duration) -> Vec<u8> {
    let mut running = started();
    let mut input = running.stdin.take().expect("piped");
    for piece in pieces {
        // The program stops reading one byte past the longest sheet: a broken pipe is no fault.
        let _ = input.write_all(piece);
        std::thread::sleep(pause);
    }
    drop(input);
    let output = running.wait_with_output().expect("the program ends");
    assert!(output.status.success(), "the program ends well");
    output.stdout
}

fn assert_same(seed: u64, text: &[u8]) {
    assert_eq!(
        String::from_utf8_lossy(&printed(&[text], Duration::ZERO)),
        String::from_utf8_lossy(&twin::report(text)),
        "seed {seed}: {:?}",
        String::from_utf8_lossy(text)
    );
}

#[test]
fn no_input() {
    assert_eq!(printed(&[], Duration::ZERO), b"E 2 0 0\n");
}

#[test]
fn inputs_around_the_longest_and_far_longer() {
    for size in [8191, 8192, 8193, 8194, 70_000, 1_000_000] {
        assert_same(0, &vec![b'F'; size]);
        assert_same(0, &b"F 1 1\n".repeat(size / 6 + 1)[..size]);
    }
}

#[test]
fn whole_and_damaged_sheets() {
    println!("seeds 1 to 400");
    for seed in 1..=400 {
        let sheet = random::small_sheet(seed, 14);
        assert_same(seed, &twin::write(&sheet));
        assert_same(seed, &damage::damaged(seed, &sheet));
    }
}

/// A reading that ends early must not be taken for the end of the sheet.
#[test]
fn sheets_in_pieces() {
    println!("seeds 401 to 410");
    for seed in 401..=410 {
        let text = twin::write(&random::small_sheet(seed, 14));
        for size in [1, 7, 64] {
            let pieces: Vec<&[u8]> = text.chunks(size).collect();
            let output = printed(&pieces, Duration::from_micros(200));
            assert_eq!(output, twin::report(&text), "seed {seed}, pieces of {size}");
        }
    }
}

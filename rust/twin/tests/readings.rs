//! Small texts for words of the requirements that could be read in more than one way, and for
//! each refusal of a sheet.

use twin::Refused;

fn refused(lines: &[&str], number: u32, line: u32, column: u32) {
    let text: String = lines.iter().map(|line| format!("{line}\n")).collect();
    assert_eq!(
        twin::read(text.as_bytes()),
        Err(Refused {
            number,
            line,
            column
        }),
        "{lines:?}"
    );
}

fn accepted(lines: &[&str]) {
    let text: String = lines.iter().map(|line| format!("{line}\n")).collect();
    let sheet = twin::read(text.as_bytes()).expect("an accepted sheet");
    assert_eq!(twin::write(&sheet), text.into_bytes());
}

#[test]
fn the_earliest_line_wins_and_in_it_the_rank() {
    refused(&["F 300 1", "F x", "T 1 3 3"], 5, 1, 3);
    refused(&["F x", "F 300 1", "T 1 3 3"], 4, 1, 3);
    refused(&["F 0 10000", "T 1 2 2"], 5, 1, 3);
    refused(&["F 1 10000", "T 1 2 2"], 5, 1, 5);
    refused(&["F 5 1", "U 5 5 10000", "T 1 2 3"], 5, 2, 7);
    refused(&["F 5 1", "U 6 6 1", "T 1 2 3"], 8, 2, 5);
    refused(&["F 5 1", "F 5 10000", "T 1 3 3"], 5, 2, 5);
    refused(&["F 5 1", "U 7 8 1", "T 1 2 3"], 9, 2, 3);
    refused(&["F 5 1", "U 251 5 1", "T 1 2 3"], 5, 2, 3);
}

#[test]
fn shape_knows_no_ranges() {
    refused(&["T 0 1 1"], 3, 1, 1);
    refused(&["T 1 1 100000"], 2, 0, 0);
    refused(&["T 01 1 1"], 2, 0, 0);
    refused(&["F 1 12345", "T 1 2 2"], 5, 1, 5);
    refused(&["F 1 99999", "T 1 2 2"], 5, 1, 5);
    refused(&["F 1 123456", "T 1 2 2"], 4, 1, 10);
    refused(&["F 00 1", "T 1 2 2"], 4, 1, 4);
}

#[test]
fn texts_without_a_trailer() {
    for text in [
        &b"\n"[..],
        b"T 1 1 1",
        b"T 1 1 1\n\n",
        b"T 1 1 1\r\n",
        b"T 1 1\n",
        b" T 1 1 1\n",
    ] {
        assert_eq!(
            twin::read(text),
            Err(Refused {
                number: 2,
                line: 0,
                column: 0
            }),
            "{text:?}"
        );
    }
    refused(&["F 1 1"], 2, 0, 0);
    refused(&["T 1 1  1"], 2, 0, 0);
    refused(&["T 1 1 1 "], 2, 0, 0);
}

#[test]
fn trailers_that_do_not_point_back() {
    refused(&["F 1 1", "T 1 2 5"], 3, 2, 1);
    refused(&["F 1 1", "T 2 1 2"], 3, 2, 1);
    refused(&["F 1 1", "T 1 3 2"], 3, 2, 1);
    refused(&["F 1 1", "T 3 3 2"], 3, 2, 1);
    refused(&["F 1 1", "T 1 1 1"], 3, 2, 1);
    refused(&["T 1 1 1", "T 1 2 2"], 4, 1, 1);
}

#[test]
fn lines_outside_their_section() {
    refused(&["F 1 1", "C 1 2", "T 1 3 3"], 4, 2, 1);
    refused(&["F 1 1", "T 2 2 2"], 4, 1, 1);
    refused(&["F 1 1", "T 1 1 2"], 4, 1, 1);
    refused(&["", "T 2 2 2"], 4, 1, 1);
    refused(&["D 1 2", "T 2 2 2"], 4, 1, 1);
    refused(&["c 1 2", "T 2 2 2"], 4, 1, 1);
}

#[test]
fn the_first_byte_that_no_line_has_there() {
    refused(&["C", "T 2 2 2"], 4, 1, 2);
    refused(&["C ", "T 2 2 2"], 4, 1, 3);
    refused(&["C  1 2", "T 2 2 2"], 4, 1, 3);
    refused(&["C 1", "T 2 2 2"], 4, 1, 4);
    refused(&["C 1 ", "T 2 2 2"], 4, 1, 5);
    refused(&["C 1 2 ", "T 2 2 2"], 4, 1, 6);
    refused(&["X 1 2 3", "T 2 2 2"], 4, 1, 6);
    refused(&["C 1 2\r", "T 2 2 2"], 4, 1, 6);
    refused(&["C -1 2", "T 2 2 2"], 4, 1, 3);
    refused(&["C 12345 123456", "T 2 2 2"], 4, 1, 14);
    refused(&["C 0 01", "T 2 2 2"], 4, 1, 6);
    refused(&["U 1 2", "T 1 1 2"], 4, 1, 6);
    refused(&["U 1 2 00", "T 1 1 2"], 4, 1, 8);
}

#[test]
fn pairs() {
    let options = ["F 1 1", "F 2 1"];
    accepted(&[options[0], options[1], "U 1 2 0", "U 2 1 0", "T 1 3 5"]);
    refused(
        &[options[0], options[1], "U 1 2 0", "U 1 2 9", "T 1 3 5"],
        10,
        4,
        1,
    );
    accepted(&["C 1 2", "C 1 2", "X 2 1", "X 9 8", "T 5 5 5"]);
    refused(&["X 7 7", "T 2 2 2"], 8, 1, 5);
    refused(&["C 250 250", "T 2 2 2"], 8, 1, 7);
}

#[test]
fn long_sections_stand_before_every_line() {
    let catalogue = "?\n".repeat(513);
    let text = catalogue.clone() + &"F 1 1\n".repeat(33) + "T 514 547 547\n";
    let refusal = |number, line| {
        Err(Refused {
            number,
            line,
            column: 1,
        })
    };
    assert_eq!(twin::read(text.as_bytes()), refusal(6, 513));
    let text = "?\n".repeat(512) + &"F 1 1\n".repeat(33) + "T 513 546 546\n";
    assert_eq!(twin::read(text.as_bytes()), refusal(6, 545));
    let text = "?\n".repeat(65) + "T 1 1 66\n";
    assert_eq!(twin::read(text.as_bytes()), refusal(6, 65));
    let text = "?\n".repeat(64) + "T 1 1 65\n";
    assert_eq!(twin::read(text.as_bytes()), refusal(4, 1));
}

#[test]
fn long_texts() {
    let nowhere = |number| {
        Err(Refused {
            number,
            line: 0,
            column: 0,
        })
    };
    assert_eq!(twin::read(&[b'x'; 8193]), nowhere(1));
    assert_eq!(twin::read(&[b'x'; 8192]), nowhere(2));
    let padded = |length: usize| {
        let end = "\nT 2 2 2\n";
        "C".to_string() + &" ".repeat(length - 1 - end.len()) + end
    };
    assert_eq!(twin::read(padded(8193).as_bytes()), nowhere(1));
    let misshapen = Err(Refused {
        number: 4,
        line: 1,
        column: 3,
    });
    assert_eq!(twin::read(padded(8192).as_bytes()), misshapen);
    let lines = "\n".repeat(8184) + "T 1 1 1\n";
    let trailer = Err(Refused {
        number: 3,
        line: 8185,
        column: 1,
    });
    assert_eq!(twin::read(lines.as_bytes()), trailer);
}

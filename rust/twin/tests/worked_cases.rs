//! The sheets on each side of a rule, all of them, and the readings of words that were unclear.

use twin::{Decision, Decisions, Fault, ItemLimits, Refused, Sheet};

const P: &str = "C 3 1\nX 2 4\nF 1 5\nF 2 3\nF 3 4\nF 4 2\nU 1 3 6\nU 2 1 1\nT 3 7 9\n";

/// The text of these lines.
fn text(lines: &[&str]) -> Vec<u8> {
    lines
        .iter()
        .map(|line| format!("{line}\n"))
        .collect::<String>()
        .into_bytes()
}

fn sheet(lines: &[&str]) -> Sheet {
    twin::read(&text(lines)).expect("an accepted sheet")
}

fn reports(lines: &[&str], output: &str) {
    let printed = String::from_utf8(twin::report(&text(lines))).expect("ASCII");
    assert_eq!(printed, output, "{lines:?}");
}

fn refused(bytes: &[u8], number: u32, line: u32, column: u32) {
    let shown = String::from_utf8_lossy(bytes);
    assert_eq!(
        twin::read(bytes),
        Err(Refused {
            number,
            line,
            column
        }),
        "{shown:?}"
    );
    assert_eq!(
        twin::report(bytes),
        format!("E {number} {line} {column}\n").into_bytes()
    );
}

fn limits(kept_lower: u32, kept_upper: u32, dropped_lower: u32, dropped_upper: u32) -> ItemLimits {
    ItemLimits {
        kept_lower,
        kept_upper,
        dropped_lower,
        dropped_upper,
    }
}

#[test]
fn sheet_p_prints_its_report() {
    let printed = twin::report(P.as_bytes());
    assert_eq!(printed, b"V 13 13\nS 1 2\nS 2 3\nS 3 1\nD 4\nR 1 3\n");
    assert_eq!(twin::best(&twin::read(P.as_bytes()).unwrap()).1, 13);
}

#[test]
fn sheet_p_all_open_has_its_limits() {
    let sheet = twin::read(P.as_bytes()).unwrap();
    let found = twin::limits(&sheet, &Decisions::open()).unwrap();
    assert!(!found.contradiction);
    assert_eq!(found.decisions.letters(&sheet), "oooodo");
    assert_eq!((found.lower, found.upper), (0, 15));
    assert_eq!(found.options[1], limits(3, 13, 0, 11));
    assert_eq!(found.options[3], limits(2, 11, 0, 13));
    assert_eq!(found.orderings[0], limits(0, 0, 0, 0));
    // by the same formulas: option 1, option 3 and the ordering of 2 before 1
    assert_eq!(found.options[0], limits(5, 15, 0, 9));
    assert_eq!(found.options[2], limits(4, 15, 0, 11));
    assert_eq!(found.orderings[1], limits(9, 13, 0, 14));
    assert!(
        found.options[4..]
            .iter()
            .all(|item| *item == ItemLimits::default())
    );
    assert!(
        found.orderings[2..]
            .iter()
            .all(|item| *item == ItemLimits::default())
    );
}

#[test]
fn smallest_sheets() {
    reports(&["T 1 1 1"], "V 0 0\n");
    refused(b"", 2, 0, 0);
    refused(&text(&["T 1 1 2"]), 3, 1, 1);
}

#[test]
fn an_exclusion_keeps_the_first_slot() {
    reports(
        &["X 1 2", "F 2 5", "F 1 5", "T 2 4 4"],
        "V 5 5\nS 1 2\nD 1\n",
    );
}

#[test]
fn a_ring_of_the_catalogue_loses_its_lightest() {
    let lines = [
        "C 1 2", "C 2 3", "C 3 1", "F 1 5", "F 2 4", "F 3 3", "T 4 7 7",
    ];
    reports(&lines, "V 9 9\nS 1 1\nS 2 2\nD 3\n");
}

#[test]
fn opposite_orderings_keep_the_first() {
    let lines = ["F 1 1", "F 2 1", "U 1 2 4", "U 2 1 4", "T 1 3 5"];
    reports(&lines, "V 6 6\nS 1 1\nS 2 2\nR 2 1\n");
}

#[test]
fn precedences_join_through_no_unsubscribed_option() {
    let lines = ["C 1 2", "C 2 3", "F 1 5", "F 3 5", "U 3 1 2", "T 3 5 6"];
    reports(&lines, "V 12 12\nS 1 3\nS 2 1\n");
}

#[test]
fn an_option_of_weight_0_is_kept() {
    reports(&["F 9 0", "T 1 2 2"], "V 0 0\nS 1 9\n");
}

#[test]
fn misshapen_lines() {
    refused(&text(&["F 05 1", "T 1 2 2"]), 4, 1, 4);
    refused(&text(&["F 5", "T 1 2 2"]), 4, 1, 4);
    refused(&text(&["F 123456 1", "T 1 2 2"]), 4, 1, 8);
}

#[test]
fn ranges() {
    refused(&text(&["F 251 1", "T 1 2 2"]), 5, 1, 3);
    reports(&["F 250 9999", "T 1 2 2"], "V 9999 9999\nS 1 250\n");
}

#[test]
fn options_named_twice_or_not_subscribed() {
    refused(&text(&["C 7 7", "T 2 2 2"]), 8, 1, 5);
    refused(&text(&["F 7 1", "F 7 2", "T 1 3 3"]), 7, 2, 3);
    refused(&text(&["F 1 1", "F 2 1", "U 1 3 1", "T 1 3 4"]), 9, 3, 5);
}

#[test]
fn thirty_two_option_lines_pass_and_thirty_three_do_not() {
    let lines = |count: usize| -> String { (1..=count).map(|a| format!("F {a} 1\n")).collect() };
    let passes = lines(32) + "T 1 33 33\n";
    assert_eq!(twin::read(passes.as_bytes()).unwrap().options.len(), 32);
    refused((lines(33) + "T 1 34 34\n").as_bytes(), 6, 33, 1);
    refused((lines(33) + "T 34 34 34\n").as_bytes(), 4, 1, 1);
    refused(("\n".repeat(33) + "T 1 34 34\n").as_bytes(), 6, 33, 1);
}

#[test]
fn heavy_options_do_not_come_first() {
    let lines = ["X 1 2", "X 1 3", "F 1 5", "F 2 3", "F 3 3", "T 3 6 6"];
    reports(&lines, "V 6 6\nS 1 2\nS 2 3\nD 1\n");
}

#[test]
fn nothing_joins_through_an_open_option() {
    let ring = sheet(&[
        "C 1 2", "C 2 3", "C 3 1", "F 1 5", "F 2 4", "F 3 3", "T 4 7 7",
    ]);
    let found = twin::limits(&ring, &Decisions::open()).unwrap();
    assert_eq!(found.decisions, Decisions::open());
    assert_eq!(found.options[0], limits(5, 12, 0, 7));
    // once 2 is kept, 1 and 3 clash; once 1 is kept too, 3 is forced out
    let two = Decisions::from_letters(&ring, "oko").unwrap();
    let found = twin::limits(&ring, &two).unwrap();
    assert_eq!(found.decisions.letters(&ring), "oko");
    assert_eq!(
        (found.options[0], found.options[2]),
        (limits(9, 9, 4, 7), limits(7, 7, 4, 9))
    );
    let both = Decisions::from_letters(&ring, "kko").unwrap();
    let found = twin::limits(&ring, &both).unwrap();
    assert_eq!(found.decisions.letters(&ring), "kkd");
    assert_eq!((found.lower, found.upper), (9, 9));
}

#[test]
fn an_ordering_is_charged_once_for_both_its_clashing_options() {
    let lines = [
        "X 1 2", "X 1 3", "F 1 5", "F 2 3", "F 3 3", "U 2 3 7", "T 3 6 7",
    ];
    let found = twin::limits(&sheet(&lines), &Decisions::open()).unwrap();
    assert_eq!((found.lower, found.upper), (0, 18));
    assert_eq!(found.options[0], limits(5, 5, 0, 13));
    // 1 clashes with both ends of the ordering and is charged once
    assert_eq!(found.orderings[0], limits(13, 13, 0, 11));
}

#[test]
fn contradictions() {
    let sheet = twin::read(P.as_bytes()).unwrap();
    for letters in ["okokoo", "ooooko", "dooook", "kkkkkk"] {
        let decisions = Decisions::from_letters(&sheet, letters).unwrap();
        let found = twin::limits(&sheet, &decisions).unwrap();
        assert!(found.contradiction, "{letters}");
        assert_eq!(found.decisions, Decisions::open());
        assert_eq!((found.lower, found.upper), (0, 0));
    }
}

#[test]
fn decision_lists_are_refused_as_14_and_15() {
    let sheet = twin::read(P.as_bytes()).unwrap();
    let refusal = |number| Refused {
        number,
        line: 0,
        column: 0,
    };
    let mut past = Decisions::open();
    past.options[4] = Decision::Dropped;
    assert_eq!(twin::limits(&sheet, &past), Err(refusal(14)));
    let mut past = Decisions::from_letters(&sheet, "kkkkkk").unwrap();
    past.orderings[63] = Decision::Kept;
    assert_eq!(twin::sequence(&sheet, &past), Err(refusal(14)));
    for (letters, number) in [
        ("okkddd", 14),
        ("kkkkdd", 15),
        ("kkkdkk", 15),
        ("dkkddk", 15),
    ] {
        let decisions = Decisions::from_letters(&sheet, letters).unwrap();
        assert_eq!(
            twin::sequence(&sheet, &decisions),
            Err(refusal(number)),
            "{letters}"
        );
    }
    let best = Decisions::from_letters(&sheet, "kkkddk").unwrap();
    let mut places = [0; 32];
    places[..3].copy_from_slice(&[2, 3, 1]);
    assert_eq!(twin::sequence(&sheet, &best), Ok(places));
    let none = Decisions::from_letters(&sheet, "dddddd").unwrap();
    assert_eq!(twin::sequence(&sheet, &none), Ok([0; 32]));
}

#[test]
fn answers_of_impostors() {
    let sheet = twin::read(P.as_bytes()).unwrap();
    let answer = |letters: &str, value, ceiling| {
        let decisions = Decisions::from_letters(&sheet, letters).unwrap();
        twin::Answer {
            decisions,
            value,
            ceiling,
        }
    };
    assert_eq!(
        twin::check_answer(&sheet, 0, &answer("kkkddk", 13, 13)),
        Ok(())
    );
    let faults = [
        (0, answer("dddddd", 0, 15), Fault::CeilingTooHigh),
        (15, answer("dddddd", 0, 12), Fault::CeilingTooLow),
        (0, answer("kkkddd", 12, 12), Fault::CeilingTooLow),
        (0, answer("kkkddk", 12, 13), Fault::WrongValue),
        (0, answer("kkkddo", 12, 13), Fault::NotDecided),
        (9, answer("kkkkdd", 14, 14), Fault::NotConsistent),
    ];
    for (tolerance, wrong, fault) in faults {
        assert_eq!(
            twin::check_answer(&sheet, tolerance, &wrong),
            Err(fault),
            "{wrong:?}"
        );
    }
    assert_eq!(
        twin::check_answer(&sheet, 15, &answer("dddddd", 0, 15)),
        Ok(())
    );
    assert_eq!(
        twin::check_answer(&sheet, 1, &answer("kkkddd", 12, 13)),
        Ok(())
    );
}

#[test]
fn a_tie_goes_to_the_first() {
    let sheet = sheet(&["X 1 2", "F 2 5", "F 1 5", "T 2 4 4"]);
    let decisions = Decisions::from_letters(&sheet, "dk").unwrap();
    let second = twin::Answer {
        decisions,
        value: 5,
        ceiling: 5,
    };
    assert_eq!(
        twin::check_answer(&sheet, 0, &second),
        Err(Fault::NotFirstOfBest)
    );
    assert_eq!(twin::check_answer(&sheet, 1, &second), Ok(()));
}

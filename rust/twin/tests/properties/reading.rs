//! Written sheets are read back, and every text is refused as a second reader says.

use crate::second_reader::refusal;
use crate::seeds;
use twin::damage::damaged;
use twin::random::{Random, full_sheet, small_sheet};
use twin::{Refused, Sheet};

/// Small sheets, and now and then a full one.
fn some_sheet(seed: u64) -> Sheet {
    if seed.is_multiple_of(20) {
        full_sheet(seed)
    } else {
        small_sheet(seed, 30)
    }
}

#[test]
fn written_sheets_are_read_back() {
    for seed in seeds("written sheets", 500_000..520_000) {
        let sheet = some_sheet(seed);
        let text = twin::write(&sheet);
        assert_eq!(refusal(&text), None, "seed {seed}");
        assert_eq!(twin::read(&text), Ok(sheet), "seed {seed}");
    }
}

/// Reads a text and compares with the second reader; its refusal's number, or 0.
fn compared(text: &[u8], seed: u64) -> u32 {
    let shown = || format!("seed {seed}\n{}", String::from_utf8_lossy(text));
    let expected = refusal(text).map(|(number, line, column)| Refused {
        number,
        line,
        column,
    });
    match twin::read(text) {
        Ok(sheet) => {
            assert_eq!(expected, None, "{}", shown());
            assert_eq!(twin::write(&sheet), text, "{}", shown());
            0
        }
        Err(refused) => {
            assert_eq!(Some(refused), expected, "{}", shown());
            refused.number
        }
    }
}

#[test]
fn damaged_texts_are_refused_as_a_second_reader_says() {
    let mut counts = [0; 11];
    for seed in seeds("damaged texts", 530_000..590_000) {
        let text = damaged(seed, &some_sheet(seed));
        counts[compared(&text, seed) as usize] += 1;
    }
    println!("accepted, then refused as 1 to 10: {counts:?}");
    assert!(counts.iter().all(|&count| count > 1000), "{counts:?}");
}

/// The first lines before the trailer of a text, with a trailer that fits them.
fn first_lines(text: &[u8], count: usize) -> Vec<u8> {
    let lines: Vec<&[u8]> = text.split_inclusive(|&byte| byte == b'\n').collect();
    let trailer = std::str::from_utf8(lines[lines.len() - 1])
        .expect("a trailer")
        .trim_end();
    let numbers = trailer
        .split(' ')
        .skip(1)
        .map(|word| word.parse::<usize>().expect("a number"));
    let mended: Vec<String> = numbers
        .map(|number| number.min(count + 1).to_string())
        .collect();
    [
        lines[..count].concat(),
        format!("T {}\n", mended.join(" ")).into_bytes(),
    ]
    .concat()
}

#[test]
fn a_refused_line_is_the_first_that_is() {
    for seed in seeds("first refused lines", 600_000..610_000) {
        let text = damaged(seed, &small_sheet(seed, 30));
        let Err(refused) = twin::read(&text) else {
            continue;
        };
        if refused.number <= 3 || refused.number == 6 {
            continue;
        }
        let line = refused.line as usize;
        assert!(
            twin::read(&first_lines(&text, line - 1)).is_ok(),
            "seed {seed}"
        );
        assert_eq!(
            twin::read(&first_lines(&text, line)),
            Err(refused),
            "seed {seed}"
        );
    }
}

#[test]
fn bytes_of_no_sheet_are_refused() {
    for seed in seeds("any bytes", 620_000..640_000) {
        let mut random = Random::new("test", seed);
        let length = random.below(40);
        let mut text: Vec<u8> = (0..length)
            .map(|_| random.pick(b"CXFUT  0123\n\n\r\0"))
            .collect();
        let lines = text.iter().filter(|&&byte| byte == b'\n').count();
        if random.once_in(2) {
            text.push(b'\n');
            let f = random.within(1, lines + 2);
            let u = random.within(f, lines + 2);
            text.extend(format!("T {f} {u} {}\n", lines + 2).bytes());
        }
        compared(&text, seed);
    }
}

//! Texts that are nearly sheets, drawn from a seed.

use crate::random::Random;
use crate::sheet::Sheet;
use crate::writing::write;

/// A damaged text of a sheet: byte edits, a truncation, repeated lines, a wrong trailer, wrong
/// numbers, a section or a text that is too long. Now and then it is still a sheet.
pub fn damaged(seed: u64, sheet: &Sheet) -> Vec<u8> {
    let mut random = Random::new("damaged text", seed);
    let text = write(sheet);
    match random.below(13) {
        0 | 1 => edited(&mut random, text),
        2 => truncated(&mut random, text),
        3 => with_line_again(&mut random, sheet, &text),
        4 => with_wrong_trailer(&mut random, sheet, text),
        5 => with_tempting_number(&mut random, text),
        6 | 7 => with_number_of_another(&mut random, text),
        8 => with_long_section(&mut random, sheet, &text),
        9 => with_pair_again(&mut random, sheet),
        10 => with_option_renamed(&mut random, sheet),
        11 => with_one_option_twice(&mut random, sheet),
        _ => lengthened(&mut random, text),
    }
}

/// One to three bytes replaced, put in or taken out.
pub fn edited(random: &mut Random, mut text: Vec<u8>) -> Vec<u8> {
    for _ in 0..random.within(1, 3) {
        let byte = match random.below(4) {
            0 => random.below(256) as u8,
            _ => random.pick(b"CXFUT 0123456789\n\r-+\t"),
        };
        let place = random.below(text.len() + 1);
        match random.below(3) {
            0 => text.insert(place, byte),
            1 if place < text.len() => text[place] = byte,
            _ if place < text.len() => drop(text.remove(place)),
            _ => {}
        }
    }
    text
}

/// Cut short anywhere, half of the time after a line end.
fn truncated(random: &mut Random, mut text: Vec<u8>) -> Vec<u8> {
    let mut length = random.below(text.len() + 1);
    if random.once_in(2) {
        while length > 0 && text[length - 1] != b'\n' {
            length -= 1;
        }
    }
    text.truncate(length);
    text
}

/// The lines of a text, each with its line end.
fn lines(text: &[u8]) -> Vec<Vec<u8>> {
    text.split_inclusive(|&byte| byte == b'\n')
        .map(<[u8]>::to_vec)
        .collect()
}

/// The beginnings of the three sections before the trailer, and the trailer's line, from 0.
fn beginnings(sheet: &Sheet) -> [usize; 4] {
    let options = sheet.catalogue.len();
    let orderings = options + sheet.options.len();
    [0, options, orderings, orderings + sheet.orderings.len()]
}

/// The trailer that has these beginnings, given from 0.
fn trailer(beginnings: [usize; 4]) -> Vec<u8> {
    let [_, f, u, t] = beginnings.map(|line| line + 1);
    format!("T {f} {u} {t}\n").into_bytes()
}

/// One line stands twice, in its section or anywhere; most trailers are mended.
fn with_line_again(random: &mut Random, sheet: &Sheet, text: &[u8]) -> Vec<u8> {
    let mut lines = lines(text);
    let mut begin = beginnings(sheet);
    let from = random.below(lines.len());
    let to = if random.once_in(2) {
        from
    } else {
        random.below(lines.len())
    };
    let mut line = lines[from].clone();
    if random.once_in(3) {
        line = with_tempting_number(random, line);
    }
    lines.insert(to, line);
    for begin in begin.iter_mut().skip(1).filter(|begin| **begin > to) {
        *begin += 1;
    }
    begin[3] = lines.len() - 1;
    if !random.once_in(4) {
        *lines.last_mut().expect("a trailer") = trailer(begin);
    }
    lines.concat()
}

/// The trailer's numbers shifted by one, exchanged, or drawn anew.
fn with_wrong_trailer(random: &mut Random, sheet: &Sheet, text: Vec<u8>) -> Vec<u8> {
    let mut lines = lines(&text);
    let mut numbers = beginnings(sheet).map(|line| line + 1);
    for _ in 0..random.within(1, 2) {
        let which = random.within(1, 3);
        let other = random.within(1, 3);
        match random.below(5) {
            0 => numbers[which] += 1,
            1 => numbers[which] = numbers[which].saturating_sub(1),
            2 => numbers.swap(which, other),
            3 => numbers[which] = random.within(0, lines.len() + 1),
            _ => numbers[which] = random.pick(&[0, 1, 513, 514, 99_999, 100_000]),
        }
    }
    let line = format!("T {} {} {}\n", numbers[1], numbers[2], numbers[3]);
    *lines.last_mut().expect("a trailer") = line.into_bytes();
    lines.concat()
}

/// Where the numbers of a text stand.
fn numbers(text: &[u8]) -> Vec<std::ops::Range<usize>> {
    let mut found: Vec<std::ops::Range<usize>> = Vec::new();
    for (place, _) in text
        .iter()
        .enumerate()
        .filter(|(_, byte)| byte.is_ascii_digit())
    {
        match found.last_mut() {
            Some(last) if last.end == place => last.end = place + 1,
            _ => found.push(place..place + 1),
        }
    }
    found
}

/// One number replaced by one that lies near a rule.
fn with_tempting_number(random: &mut Random, mut text: Vec<u8>) -> Vec<u8> {
    let tempting: [&[u8]; 18] = [
        b"0", b"1", b"249", b"250", b"251", b"255", b"256", b"9999", b"10000", b"12345", b"65536",
        b"99999", b"100000", b"00", b"05", b"", b"-1", b"1 ",
    ];
    let all = numbers(&text);
    for _ in 0..random.within(1, 2).min(all.len()) {
        let chosen = all[random.below(all.len())].clone();
        if chosen.end <= text.len() {
            text.splice(chosen, random.pick(&tempting).iter().copied());
        }
    }
    text
}

/// One number replaced by another number of the text, not the trailer's: an option twice, an
/// option not subscribed, a pair again.
fn with_number_of_another(random: &mut Random, mut text: Vec<u8>) -> Vec<u8> {
    let mut all = numbers(&text);
    all.truncate(all.len() - 3);
    if !all.is_empty() {
        let chosen = random.below(all.len());
        let near = chosen.saturating_sub(random.below(5));
        let from = if random.once_in(2) {
            near
        } else {
            random.below(all.len())
        };
        let other = text[all[from].clone()].to_vec();
        text.splice(all[chosen].clone(), other);
    }
    text
}

/// One ordering names the pair of another, with its own weight.
fn with_pair_again(random: &mut Random, sheet: &Sheet) -> Vec<u8> {
    let mut sheet = sheet.clone();
    if sheet.orderings.len() > 1 {
        let from = random.pick(&sheet.orderings);
        let slot = random.below(sheet.orderings.len());
        sheet.orderings[slot].before = from.before;
        sheet.orderings[slot].after = from.after;
    }
    write(&sheet)
}

/// One option has another number, so that its orderings name an option not subscribed.
fn with_option_renamed(random: &mut Random, sheet: &Sheet) -> Vec<u8> {
    let mut sheet = sheet.clone();
    if !sheet.options.is_empty() {
        let slot = random.below(sheet.options.len());
        sheet.options[slot].number = random.within(1, 250) as u8;
    }
    write(&sheet)
}

/// A catalogue line, an option or an ordering that names an option a second time.
fn with_one_option_twice(random: &mut Random, sheet: &Sheet) -> Vec<u8> {
    let mut sheet = sheet.clone();
    let (lines, options) = (sheet.catalogue.len(), sheet.options.len());
    match random.below(3) {
        0 if lines > 0 => {
            let line = &mut sheet.catalogue[random.below(lines)];
            line.after = line.before;
        }
        1 if options > 0 => {
            let number = random.pick(&sheet.options).number;
            sheet.options[random.below(options)].number = number;
        }
        _ if !sheet.orderings.is_empty() => {
            let slot = random.below(sheet.orderings.len());
            sheet.orderings[slot].before = sheet.orderings[slot].after;
        }
        _ => {}
    }
    write(&sheet)
}

/// One section filled up to its limit, or past it, with lines of its own or of any letter.
fn with_long_section(random: &mut Random, sheet: &Sheet, text: &[u8]) -> Vec<u8> {
    let mut lines = lines(text);
    let mut begin = beginnings(sheet);
    let section = random.below(3);
    let most = [Sheet::CATALOGUE_LINES, Sheet::OPTIONS, Sheet::ORDERINGS][section];
    let wanted = most + random.below(3);
    let fill = random.pick(&[
        &b"C 1 2\n"[..],
        b"X 250 1\n",
        b"F 9 0\n",
        b"U 1 2 3\n",
        b"\n",
    ]);
    while begin[section + 1] - begin[section] < wanted {
        let from = begin[section] + random.below(begin[section + 1] - begin[section] + 1);
        let own = lines[from].clone();
        let line = if random.once_in(2) {
            fill.to_vec()
        } else {
            own
        };
        lines.insert(begin[section + 1], line);
        begin
            .iter_mut()
            .skip(section + 1)
            .for_each(|line| *line += 1);
    }
    *lines.last_mut().expect("a trailer") = trailer(begin);
    lines.concat()
}

/// Brought to a length round 8,192 bytes by bytes put in at one place.
fn lengthened(random: &mut Random, mut text: Vec<u8>) -> Vec<u8> {
    let wanted = random.within(Sheet::BYTES - 1, Sheet::BYTES + 2);
    let place = random.below(text.len() + 1);
    let byte = random.pick(b" 01\nC");
    let more = wanted.saturating_sub(text.len());
    text.splice(place..place, std::iter::repeat_n(byte, more));
    text
}

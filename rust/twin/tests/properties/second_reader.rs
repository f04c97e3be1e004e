//! Refusals a second time, by another way than the library's: words of a line, sets of what was
//! named before, and well-shaped lines found by completing what stands there.

use std::collections::HashSet;

/// A refusal: its number, its line and its column.
pub type Place = (u32, u32, u32);

/// Whether these bytes are a number as a sheet writes one.
fn is_number(word: &str) -> bool {
    word.len() <= 5
        && word
            .parse::<u32>()
            .is_ok_and(|number| number.to_string() == word)
}

/// Whether a line, its line end included, has one of the letters and so many numbers.
fn well_shaped(line: &[u8], letters: &str, numbers: usize) -> bool {
    let Some(body) = line
        .strip_suffix(b"\n")
        .and_then(|body| std::str::from_utf8(body).ok())
    else {
        return false;
    };
    let words: Vec<&str> = body.split(' ').collect();
    words.len() == numbers + 1
        && words[0].len() == 1
        && letters.contains(words[0])
        && words[1..].iter().all(|word| is_number(word))
}

/// Whether some well-shaped line begins with these bytes: one of the shortest completions works
/// for each beginning that has one.
fn begins_one(bytes: &[u8], letters: &str, numbers: usize) -> bool {
    let mut ends = vec![String::new()];
    for count in 0..=numbers {
        let rest = " 1".repeat(count) + "\n";
        ends.push(format!("1{rest}"));
        ends.extend(letters.chars().map(|letter| format!("{letter}{rest}")));
        ends.push(rest);
    }
    ends.iter()
        .any(|end| well_shaped(&[bytes, end.as_bytes()].concat(), letters, numbers))
}

/// The letters and the count of numbers of the section of a line.
fn section(line: usize, f: usize, u: usize) -> (&'static str, usize) {
    match line {
        _ if line < f => ("CX", 2),
        _ if line < u => ("F", 2),
        _ => ("U", 3),
    }
}

/// What the lines before have named.
#[derive(Default)]
struct Named {
    options: HashSet<u32>,
    pairs: HashSet<(u32, u32)>,
}

/// The refusal of a well-shaped line with its column, if it has one.
fn refusal_of_line(line: &str, named: &mut Named) -> Option<(u32, usize)> {
    let letter = &line[..1];
    let mut numbers: Vec<(u32, usize)> = Vec::new();
    for (place, _) in line.match_indices(' ') {
        let word = line[place + 1..].split([' ', '\n']).next()?;
        numbers.push((word.parse().ok()?, place + 2));
    }
    let options = if letter == "F" {
        &numbers[..1]
    } else {
        &numbers[..2]
    };
    let weight = numbers.get(options.len());
    let bad_option = options
        .iter()
        .find(|(number, _)| *number == 0 || *number > 250);
    if let Some((_, column)) = bad_option.or(weight.filter(|(number, _)| *number > 9999)) {
        return Some((5, *column));
    }
    if letter == "F" {
        return (!named.options.insert(numbers[0].0)).then_some((7, numbers[0].1));
    }
    if numbers[0].0 == numbers[1].0 {
        return Some((8, numbers[1].1));
    }
    if letter == "U" {
        let unknown = options
            .iter()
            .find(|(number, _)| !named.options.contains(number));
        let again = unknown.is_none() && !named.pairs.insert((numbers[0].0, numbers[1].0));
        return unknown
            .map(|(_, column)| (9, *column))
            .or(again.then_some((10, 1)));
    }
    None
}

/// The refusal of a text that is refused as 1, 2, 3 or 6, or else the trailer's numbers.
fn frame(text: &[u8]) -> Result<(usize, usize), Place> {
    if text.len() > 8192 {
        return Err((1, 0, 0));
    }
    let ends: Vec<usize> = (0..text.len()).filter(|&i| text[i] == 10).collect();
    let start = if ends.len() < 2 {
        0
    } else {
        ends[ends.len() - 2] + 1
    };
    if text.last() != Some(&10) || !well_shaped(&text[start..], "T", 3) {
        return Err((2, 0, 0));
    }
    let last = std::str::from_utf8(&text[start..]).unwrap().trim_end();
    let numbers: Vec<usize> = last
        .split(' ')
        .skip(1)
        .map(|word| word.parse().unwrap())
        .collect();
    let (f, u, t) = (numbers[0], numbers[1], numbers[2]);
    if f < 1 || u < f || t < u || t != ends.len() {
        return Err((3, ends.len() as u32, 1));
    }
    match () {
        _ if f > 513 => Err((6, 513, 1)),
        _ if u > f + 32 => Err((6, f as u32 + 32, 1)),
        _ if t > u + 64 => Err((6, u as u32 + 64, 1)),
        _ => Ok((f, u)),
    }
}

/// The refusal of a text, or none if it is accepted.
pub fn refusal(text: &[u8]) -> Option<Place> {
    let (f, u) = match frame(text) {
        Err(place) => return Some(place),
        Ok(numbers) => numbers,
    };
    let mut named = Named::default();
    let lines: Vec<&[u8]> = text.split(|&byte| byte == 10).collect();
    for (index, body) in lines[..lines.len() - 2].iter().enumerate() {
        let line = [body, &b"\n"[..]].concat();
        let (letters, numbers) = section(index + 1, f, u);
        if !well_shaped(&line, letters, numbers) {
            let fits = |length: &usize| begins_one(&line[..*length], letters, numbers);
            let length = (1..=line.len()).find(|length| !fits(length))?;
            return Some((4, index as u32 + 1, length as u32));
        }
        let line = std::str::from_utf8(&line).ok()?;
        if let Some((number, column)) = refusal_of_line(line, &mut named) {
            return Some((number, index as u32 + 1, column as u32));
        }
    }
    None
}

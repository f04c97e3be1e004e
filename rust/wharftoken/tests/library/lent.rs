//! The library's functions with lent buffers full of a pattern. Every comparison goes through
//! here, so that each refusal is seen to change no lent byte, and each success nothing past what
//! it writes.

use std::fmt::Debug;
use twin::Refused;
use wharftoken::{Answer, raw};

/// What limits tell: whether the decisions contradict, the forced ones, and the 386 numbers.
pub type Limited = (bool, Vec<u8>, Vec<u32>);
/// What a search finds: decisions, and value and ceiling.
pub type Found = (Vec<u8>, [u32; 2]);

fn pattern(index: usize) -> u8 {
    (index * 7 + 131) as u8
}

fn bytes(length: usize) -> Vec<u8> {
    (0..length).map(pattern).collect()
}

fn numbers(length: usize) -> Vec<u32> {
    (0..length)
        .map(|index| u32::from_le_bytes([pattern(index); 4]))
        .collect()
}

/// The count of an answer, or its refusal. A refusal counts nothing, and what is accepted has no
/// place.
fn count(answer: Answer) -> Result<usize, Refused> {
    let Answer {
        number,
        line,
        column,
        count,
    } = answer;
    if number == 0 {
        assert_eq!((line, column), (0, 0), "accepted at a place: {answer:?}");
        return Ok(usize::from(count));
    }
    assert_eq!(count, 0, "refused with a count: {answer:?}");
    Err(Refused {
        number: u32::from(number),
        line: u32::from(line),
        column: u32::from(column),
    })
}

/// The first elements of a buffer, if the rest is as it was.
fn written<T: PartialEq + Debug>(mut after: Vec<T>, before: &[T], length: usize) -> Vec<T> {
    assert!(length <= after.len(), "written past the end");
    assert_eq!(after[length..], before[length..], "past what is written");
    after.truncate(length);
    after
}

/// Calls with one lent buffer; what it wrote, of the length that follows from its count.
fn call(
    length: usize,
    function: impl FnOnce(&mut [u8]) -> Answer,
    wrote: impl FnOnce(usize) -> usize,
) -> Result<(usize, Vec<u8>), Refused> {
    let before = bytes(length);
    let mut after = before.clone();
    match count(function(&mut after)) {
        Ok(count) => Ok((count, written(after, &before, wrote(count)))),
        Err(refused) => {
            assert_eq!(after, before, "changed though refused: {refused:?}");
            Err(refused)
        }
    }
}

/// Calls with a buffer of bytes and one of numbers.
fn call_with_numbers(
    lengths: (usize, usize),
    function: impl FnOnce(&mut [u8], &mut [u32]) -> Answer,
    wrote: usize,
) -> Result<(usize, Vec<u8>, Vec<u32>), Refused> {
    let before = numbers(lengths.1);
    let mut after = before.clone();
    let called = call(
        lengths.0,
        |lent| function(lent, &mut after),
        |_| raw::DECISIONS,
    );
    match called {
        Ok((count, list)) => Ok((count, list, written(after, &before, wrote))),
        Err(refused) => {
            assert_eq!(after, before, "changed though refused: {refused:?}");
            Err(refused)
        }
    }
}

/// The report of a text, in a buffer of this length.
pub fn report(text: &[u8], length: usize) -> Result<Vec<u8>, Refused> {
    let called = call(length, |out| raw::report(text, out), |count| count);
    called.map(|(_, report)| report)
}

/// The bytes of the record of a text.
pub fn read(text: &[u8], length: usize) -> Result<Vec<u8>, Refused> {
    let (count, record) = call(length, |out| raw::read(text, out), |_| raw::RECORD)?;
    assert_eq!(count, 0, "reading counts nothing");
    Ok(record)
}

/// The text of a record.
pub fn write(record: &[u8], length: usize) -> Result<Vec<u8>, Refused> {
    let called = call(length, |out| raw::write(record, out), |count| count);
    called.map(|(_, text)| text)
}

/// The limits of a record and decisions, in buffers of these lengths.
pub fn limits(record: &[u8], list: &[u8], lengths: (usize, usize)) -> Result<Limited, Refused> {
    let function =
        |forced: &mut [u8], limits: &mut [u32]| raw::limits(record, list, forced, limits);
    let (count, forced, limits) = call_with_numbers(lengths, function, raw::LIMITS)?;
    assert!(count <= 1, "a contradiction counts 1: {count}");
    Ok((count == 1, forced, limits))
}

/// The places of a record and decisions, and how many are in use.
pub fn sequence(record: &[u8], list: &[u8], length: usize) -> Result<(usize, Vec<u8>), Refused> {
    call(
        length,
        |out| raw::sequence(record, list, out),
        |_| raw::PLACES,
    )
}

/// What the search finds.
pub fn search(record: &[u8], tolerance: u32, lengths: (usize, usize)) -> Result<Found, Refused> {
    let function =
        |list: &mut [u8], totals: &mut [u32]| raw::search(record, tolerance, list, totals);
    let (count, list, totals) = call_with_numbers(lengths, function, raw::TOTALS)?;
    assert_eq!(count, 0, "a search counts nothing");
    Ok((list, [totals[0], totals[1]]))
}

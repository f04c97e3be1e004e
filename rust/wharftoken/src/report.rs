//! The report on a sheet.

use crate::raw;

/// The most bytes that a report has.
const LONGEST: usize = 1024;

/// The report on the best relaxation of a sheet, or its `E number line column` line if the sheet
/// is refused.
pub fn report(text: &[u8]) -> Vec<u8> {
    let mut out = vec![0; LONGEST];
    let answer = raw::report(text, &mut out);
    let length = answer.accepted().expect("no report is longer");
    out.truncate(length);
    out
}

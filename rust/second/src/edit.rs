//! Editing a v8 file: its sheet with a run of records replaced, written anew.

use crate::sheet::{self, Layout, Record};
use crate::{no, read, write, Answer, Refusal};

/// Replaces the `count` records from `first` on by the version 2 records in
/// `replacement` (with their length bytes, no version byte, no header) and
/// writes the new file to the front of `out`.
///
/// Refusals come as "the reader's refusals except 11, then 14, 15, 12 for the
/// replacement [...], 13, 16, 11" and leave `out` untouched.
pub fn edit(file: &[u8], first: usize, count: usize, replacement: &[u8], out: &mut [u8]) -> Answer {
    match edited_sheet(file, first, count, replacement) {
        // The layout is judged by now, so only 13, 16 and 11 can follow.
        Ok(sheet) => write(&sheet, out),
        Err(refusal) => refusal.into(),
    }
}

/// "the old file's sheet with the replacement, in order, where the run stood"
fn edited_sheet(
    file: &[u8],
    first: usize,
    count: usize,
    replacement: &[u8],
) -> Result<Vec<u8>, Refusal> {
    let (old, records) = old_sheet(file)?;
    if !is_ours(file, &old) {
        return Err(no(14, 0));
    }
    let end = judge_run(records, first, count)?;
    judge_replacement(replacement, |_| {})?;
    let mut new = old[..record_place(&old, first)].to_vec();
    new.extend_from_slice(replacement);
    new.extend_from_slice(&old[record_place(&old, end)..]);
    Ok(new)
}

/// The file's sheet and record count, however long the sheet is.
fn old_sheet(file: &[u8]) -> Result<(Vec<u8>, usize), Refusal> {
    let mut sheet = Vec::new();
    loop {
        match read(file, &mut sheet) {
            Answer::Done { records, .. } => return Ok((sheet, records)),
            Answer::Refused { number: 11, place } => sheet = vec![0; place],
            Answer::Refused { number, place } => return Err(no(number.into(), place)),
        }
    }
}

/// Whether the file "is exactly what they give for that sheet".
fn is_ours(file: &[u8], sheet: &[u8]) -> bool {
    let mut again = vec![0; file.len()];
    match write(sheet, &mut again) {
        Answer::Done { bytes, .. } => bytes == file.len() && again == file,
        Answer::Refused { .. } => false,
    }
}

/// Where the run ends, or 15: "first record plus count above the record count".
pub(crate) fn judge_run(records: usize, first: usize, count: usize) -> Result<usize, Refusal> {
    first.checked_add(count).filter(|&end| end <= records).ok_or(no(15, records))
}

/// Shows each record, or gives 12: "records only, no header; place within it".
pub(crate) fn judge_replacement(
    replacement: &[u8],
    mut show: impl FnMut(&Record),
) -> Result<(), Refusal> {
    sheet::each(Layout::Version2, replacement, |_, record| show(record)).map(|_| ())
}

/// Where record `number` begins in a good sheet, or the sheet's end.
fn record_place(sheet: &[u8], number: usize) -> usize {
    let mut place = 1;
    // The header is skipped too, and stands before record 0.
    for _ in 0..=number {
        let length = u16::from_be_bytes([sheet[place], sheet[place + 1]]);
        place += 2 + usize::from(length);
    }
    place
}

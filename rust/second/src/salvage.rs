//! What can be saved of a broken file.

use crate::read::{pass, Wanted};
use crate::{no, Refusal};

/// What salvaging answers: as reading does, with a report. `number` and `place`
/// are the refusal that ordinary reading gives, or 0 and the file length for a
/// whole file; `left` counts the file bytes from that place on.
#[derive(Clone, Copy, PartialEq, Eq, Debug)]
pub enum Salvaged {
    Saved { bytes: usize, records: usize, version: u8, number: u8, place: usize, left: usize },
    Refused { number: u8, place: usize },
}

/// Writes "the sheet of all records made by items before the first refused one"
/// to the front of `sheet`.
///
/// Refusals come as "16, 1, 2, 3, and 4 for the v8 byte as in reading; 11 last"
/// and leave `sheet` untouched.
pub fn salvage(file: &[u8], sheet: &mut [u8]) -> Salvaged {
    match pass::<false>(file, sheet, Wanted::RecordsBefore, |_, _| Ok(())) {
        Ok(passed) => {
            let whole = no(0, file.len());
            let Refusal { number, place } = passed.end.err().unwrap_or(whole);
            Salvaged::Saved {
                bytes: passed.bytes,
                records: passed.records,
                version: passed.version,
                number: number as u8,
                place,
                left: file.len() - place,
            }
        }
        Err(Refusal { number, place }) => Salvaged::Refused { number: number as u8, place },
    }
}

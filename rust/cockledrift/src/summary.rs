//! Entrances at a glance: a summary beside a sheet.

#![forbid(unsafe_code)]

use crate::answer::{byte, number};
use crate::library::{self, EntranceNumbers, SummaryNumbers};
use crate::{Refusal, Sheet};
use std::ops::Range;

/// What a stretch of records holds.
#[derive(Clone, Copy, PartialEq, Eq, Hash, Debug)]
pub struct Entrances {
    /// How many of its records are entrances: stations with flag 0x04.
    pub count: u64,
    /// The first entrance at or after the stretch's start, even past its end.
    pub next: Option<usize>,
}

/// The words that the summary of so many records takes.
pub fn summary_words(records: usize) -> usize {
    2 * records.div_ceil(64)
}

fn taken(answer: SummaryNumbers) -> Result<usize, Refusal> {
    match byte(answer.number) {
        0 => Ok(answer.words),
        number => Err(Refusal { number, place: answer.place }),
    }
}

/// Makes the summary of a sheet at the front of the words, and answers how many
/// it takes: a mark for each record, 64 to a word, lowest bit first and spare bits
/// 0, then as many words with a running total at each word's start.
///
/// A sheet that breaks the layout is refused as for writing (12); then 11, with
/// the words needed for its place.
pub fn summarize(sheet: &[u8], words: &mut [u64]) -> Result<usize, Refusal> {
    taken(library::summary(sheet, words))
}

/// How many entrances the records of a range hold, and which is the next at or
/// after its start, by the summary of so many records.
///
/// A summary too short for the records is refused with 11, at the words needed; then
/// a range that starts after its end, or passes the records, with 15, at the
/// record count. Of words that are no summary of the sheet the next entrance is that
/// of the marks they hold, and the count is what their totals say.
pub fn entrances(words: &[u64], records: u32, range: Range<usize>) -> Result<Entrances, Refusal> {
    let EntranceNumbers { number, place, count, found, next } =
        library::entrances(words, records, range.start, range.end);
    match byte(number) {
        0 => Ok(Entrances { count, next: (found == 1).then_some(next) }),
        number => Err(Refusal { number, place }),
    }
}

/// Brings a summary up to date, in its place, after [`edit`](crate::edit) was
/// accepted with this run and replacement: `records` were in the old file. Answers
/// the words that it then takes.
///
/// A run that passes the records is refused with 15 and a bad replacement with 12,
/// as in an edit; then 11, with the words that the longer of the old summary and the
/// new one needs.
pub fn update_summary(
    words: &mut [u64],
    records: u32,
    first: usize,
    count: usize,
    new: &[u8],
) -> Result<usize, Refusal> {
    taken(library::summary_update(words, records, first, count, new))
}

/// A summary of a sheet, in words of its own.
///
/// ```
/// use cockledrift::{edit_vec, Sheet, Summary};
///
/// let sheet = Sheet::read(&std::fs::read("../testdata/passage.v8.3d")?)?;
/// let mut summary = Summary::of(&sheet)?;
/// let all = summary.entrances(0..summary.records())?;
/// assert_eq!((all.count, all.next), (1, Some(21)));
///
/// let new = edit_vec(&sheet.write()?, 0, 20, b"")?;
/// summary.update(0, 20, b"")?;
/// assert_eq!(summary.entrances(0..0)?.next, Some(1));
/// assert_eq!(summary, Summary::of(&Sheet::read(&new)?)?);
/// # Ok::<(), Box<dyn std::error::Error>>(())
/// ```
#[derive(Clone, PartialEq, Eq, Hash, Debug)]
pub struct Summary {
    words: Vec<u64>,
    records: u32,
}

impl Summary {
    /// The summary of a sheet. One of 2^32 records or more, which no file has, is
    /// refused with 16.
    pub fn of(sheet: &Sheet) -> Result<Summary, Refusal> {
        let records = counted(sheet.records().count())?;
        let mut words = vec![0; summary_words(records as usize)];
        summarize(sheet.bytes(), &mut words)?;
        Ok(Summary { words, records })
    }

    /// How many records it is a summary of.
    pub fn records(&self) -> usize {
        self.records as usize
    }

    /// Its words: all marks, then as many totals.
    pub fn words(&self) -> &[u64] {
        &self.words
    }

    /// The entrances of a stretch of records, and the next one: see [`entrances`].
    pub fn entrances(&self, range: Range<usize>) -> Result<Entrances, Refusal> {
        entrances(&self.words, self.records, range)
    }

    /// The summary after an edit, of the run and the replacement that the edit was
    /// accepted with: see [`update_summary`]. A refusal changes nothing; one more is
    /// 16, for a replacement with which there could be 2^32 records.
    pub fn update(&mut self, first: usize, count: usize, new: &[u8]) -> Result<(), Refusal> {
        counted(self.records() + new.len() / LEAST_RECORD)?;
        let words = &mut self.words;
        let taken = match update_summary(words, self.records, first, count, new) {
            Err(refusal) => {
                // 11 comes last: with room enough it is accepted.
                words.resize(refusal.needed().ok_or(refusal)?, 0);
                update_summary(words, self.records, first, count, new)?
            }
            Ok(taken) => taken,
        };
        words.truncate(taken);
        self.records = counted(self.records() - count + framed(new))?;
        Ok(())
    }
}

/// The bytes of the shortest record: a station with no label.
const LEAST_RECORD: usize = 16;

/// A record count as the library takes it.
fn counted(records: usize) -> Result<u32, Refusal> {
    u32::try_from(records).map_err(|_| Refusal { number: number::FILE_TOO_LONG, place: 0 })
}

/// How many records follow one another, all of them well-formed.
fn framed(mut records: &[u8]) -> usize {
    let mut count = 0;
    while let [high, low, ..] = *records {
        records = &records[2 + usize::from(u16::from_be_bytes([high, low]))..];
        count += 1;
    }
    count
}

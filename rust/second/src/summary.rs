//! Entrances at a glance: a summary beside the sheet, of a mark for each record
//! and a running total at each word's start.

use crate::edit::{judge_replacement, judge_run};
use crate::sheet::{self, Record};
use crate::{no, Refusal};

/// Records to a word of marks.
const TO_A_WORD: usize = 64;

/// A station's flag for an entrance.
const ENTRANCE: u8 = 0x04;

/// What making a summary and bringing it up to date answer: "the words it then
/// takes".
#[derive(Clone, Copy, PartialEq, Eq, Debug)]
pub enum Summary {
    Takes { words: usize },
    Refused { number: u8, place: usize },
}

/// What a question answers: how many entrances the stretch holds, and the next
/// one, where "none" is an ordinary answer.
#[derive(Clone, Copy, PartialEq, Eq, Debug)]
pub enum Entrances {
    Counted { count: u64, next: Option<usize> },
    Refused { number: u8, place: usize },
}

/// Makes the summary of `sheet`, of version 1 or 2, in the front of `words`:
/// "All marks come first, lowest bit first and spare bits 0, then the totals."
///
/// Refusals come as "12, then 11 with the words needed" and leave `words`
/// untouched.
pub fn summarize(sheet: &[u8], words: &mut [u64]) -> Summary {
    taken(made(sheet, words))
}

/// Answers, for a sheet of `records` records by its summary in the front of
/// `words`, how many entrances stand from record `from` up to but not including
/// record `to`, and "the least marked record at or after" `from`, "even past"
/// `to`.
///
/// Refusals come as "11 for a summary too short", with the words needed, "then
/// 15 when a is above b or either is above the record count", with that count.
///
/// A summary of another sheet is not found out. Then the count is what its
/// totals and the marks beside them say, wrapping, and the next entrance the
/// least record that its words mark; a spare bit is no record's.
pub fn entrances(words: &[u64], records: usize, from: usize, to: usize) -> Entrances {
    match asked(words, records, from, to) {
        Ok((count, next)) => Entrances::Counted { count, next },
        Err(Refusal { number, place }) => Entrances::Refused { number: number as u8, place },
    }
}

/// Brings the summary of a sheet of `records` records "up to date in its
/// place", for an edit that replaces the `count` records from `first` on by the
/// version 2 records in `replacement`.
///
/// Refusals come as "15 and 12 as for an edit, then 11 with the words that the
/// longer of old and new needs" and leave `words` untouched.
///
/// A summary of another sheet is not found out. Then the new marks are the old
/// words' with the replacement's where the run stood, and the totals are theirs.
pub fn update_summary(
    words: &mut [u64],
    records: usize,
    first: usize,
    count: usize,
    replacement: &[u8],
) -> Summary {
    taken(updated(words, records, first, count, replacement))
}

fn taken(words: Result<usize, Refusal>) -> Summary {
    match words {
        Ok(words) => Summary::Takes { words },
        Err(Refusal { number, place }) => Summary::Refused { number: number as u8, place },
    }
}

fn made(sheet: &[u8], words: &mut [u64]) -> Result<usize, Refusal> {
    let mut marks = Vec::new();
    sheet::all(sheet, |_, record| marks.push(is_entrance(record)))?;
    enough(words, words_of(marks.len()))?;
    Ok(pack(&marks, words))
}

fn asked(
    words: &[u64],
    records: usize,
    from: usize,
    to: usize,
) -> Result<(u64, Option<usize>), Refusal> {
    enough(words, words_of(records))?;
    if from > to || to > records {
        return Err(no(15, records));
    }
    let (marks, totals) = words[..words_of(records)].split_at(words_of(records) / 2);
    let count = before(marks, totals, to).wrapping_sub(before(marks, totals, from));
    let next = (from..records).find(|&record| is_marked(marks, record));
    Ok((count, next))
}

fn updated(
    words: &mut [u64],
    records: usize,
    first: usize,
    count: usize,
    replacement: &[u8],
) -> Result<usize, Refusal> {
    let end = judge_run(records, first, count)?;
    let mut new = Vec::new();
    judge_replacement(replacement, |record| new.push(is_entrance(record)))?;
    enough(words, words_of(records).max(words_of_both(records - count, new.len())))?;
    let mut marks: Vec<bool> = (0..records).map(|record| is_marked(words, record)).collect();
    marks.splice(first..end, new);
    Ok(pack(&marks, words))
}

/// "entrances (stations with flag 0x04)": on a leg that flag says another
/// thing.
fn is_entrance(record: &Record) -> bool {
    matches!(*record, Record::Station { flags, .. } if flags & ENTRANCE != 0)
}

/// The words that so many records take: for each 64 begun a word of marks and
/// a total.
fn words_of(records: usize) -> usize {
    2 * records.div_ceil(TO_A_WORD)
}

/// The same for the records of both. Their sum may pass the greatest `usize`,
/// since an old record count is the caller's word alone, but its words can't.
fn words_of_both(kept: usize, new: usize) -> usize {
    let whole = kept / TO_A_WORD + new / TO_A_WORD;
    2 * whole + words_of(kept % TO_A_WORD + new % TO_A_WORD)
}

fn enough(words: &[u64], needed: usize) -> Result<(), Refusal> {
    if words.len() < needed {
        Err(no(11, needed))
    } else {
        Ok(())
    }
}

/// "lowest bit first"
fn is_marked(marks: &[u64], record: usize) -> bool {
    marks[record / TO_A_WORD] >> (record % TO_A_WORD) & 1 == 1
}

/// The entrances before `record`: the total at its word's start and the ones
/// before it in that word. After the last word that is all the last one says.
fn before(marks: &[u64], totals: &[u64], record: usize) -> u64 {
    let ones = |marks: u64| u64::from(marks.count_ones());
    let word = record / TO_A_WORD;
    if word < marks.len() {
        let mask = (1 << (record % TO_A_WORD)) - 1;
        return totals[word].wrapping_add(ones(marks[word] & mask));
    }
    match (marks.last(), totals.last()) {
        (Some(&last), Some(&total)) => total.wrapping_add(ones(last)),
        _ => 0,
    }
}

/// Writes the summary of these marks and answers the words it takes.
fn pack(marks: &[bool], words: &mut [u64]) -> usize {
    let taken = words_of(marks.len());
    let (packed, totals) = words[..taken].split_at_mut(taken / 2);
    let mut total = 0;
    for ((word, at_start), marks) in packed.iter_mut().zip(totals).zip(marks.chunks(TO_A_WORD)) {
        *at_start = total;
        *word = 0;
        for (bit, &mark) in marks.iter().enumerate() {
            *word |= u64::from(mark) << bit;
            total += u64::from(mark);
        }
    }
    taken
}

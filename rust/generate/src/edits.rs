//! Edits: a run of a file's records, and what is to stand in its place.

use crate::record::*;
use crate::rng::Rng;
use crate::sheets::records_of;
use crate::{damage, sheet_edges};

/// What an edit asks for.
#[derive(Clone, Copy, PartialEq, Eq, PartialOrd, Ord, Debug)]
pub enum EditKind {
    /// A run within the file, and good records.
    Good,
    /// A run that goes past the last record.
    Past,
    /// A replacement that may be no good.
    Flawed,
    /// A leg of style 5, which may come after another style.
    Unsaid,
    /// A file that may be none of ours, or none at all.
    Foreign,
}

/// A first record, a count, and the bytes of a replacement.
#[derive(Clone, Debug)]
pub struct Edit {
    pub first: usize,
    pub count: usize,
    pub new: Vec<u8>,
}

/// The records with their length bytes.
pub fn laid(records: &[Body]) -> Vec<u8> {
    sheet(records)[1..].to_vec()
}

/// Edits of a file of so many records.
pub fn round(rng: &mut Rng, records: usize) -> Vec<(EditKind, Edit)> {
    let mut edits = vec![
        (EditKind::Good, Edit { first: 0, count: 0, new: Vec::new() }),
        (EditKind::Good, Edit { first: 0, count: records, new: Vec::new() }),
        (EditKind::Good, Edit { first: records, count: 0, new: some(rng) }),
    ];
    for _ in 0..4 {
        edits.push((EditKind::Good, within(rng, records)));
        edits.push((EditKind::Past, past(rng, records)));
        edits.push((EditKind::Flawed, flawed(rng, records)));
        edits.push((EditKind::Unsaid, unsaid(rng, records)));
    }
    edits
}

fn some(rng: &mut Rng) -> Vec<u8> {
    laid(&records_of(rng))
}

/// A run within the file, often of no record or of one.
fn within(rng: &mut Rng, records: usize) -> Edit {
    let first = rng.below(records + 1);
    let left = records - first;
    let count = if rng.one_in(2) { rng.below(2).min(left) } else { rng.below(left + 1) };
    let new = if rng.one_in(6) { Vec::new() } else { some(rng) };
    Edit { first, count, new }
}

/// A run just past the last record, or so far that the sum would wrap.
fn past(rng: &mut Rng, records: usize) -> Edit {
    let (first, count) = rng.pick(&[
        (records + 1, 0),
        (records, 1),
        (0, records + 1),
        (usize::MAX, 0),
        (0, usize::MAX),
        (1, usize::MAX),
        (usize::MAX, usize::MAX),
    ]);
    Edit { first, count, new: some(rng) }
}

/// A replacement with damage, a header in it, or a whole sheet's bytes.
fn flawed(rng: &mut Rng, records: usize) -> Edit {
    let Edit { first, count, mut new } = within(rng, records);
    match rng.below(7) {
        0 => damage::flip(rng, &mut new),
        1 => damage::insert(rng, &mut new),
        2 if !new.is_empty() => new.truncate(rng.below(new.len())),
        // version 1 sections, read as version 2
        5 => new = laid(&without_dates(&records_of(rng))),
        3 => new.extend(laid(&[header(0, b"A", b"@0")])),
        4 => new = sheet_edges::all().nth(rng.below(300)).expect("an edge"),
        _ => new.push(rng.byte()),
    }
    Edit { first, count, new }
}

/// Legs of style 5 behind good records.
fn unsaid(rng: &mut Rng, records: usize) -> Edit {
    let Edit { first, count, mut new } = within(rng, records);
    new.extend(laid(&[Leg::plain(b"a").body()]));
    Edit { first, count, new }
}

/// Two edits of a file of so many records, the earlier first: runs that share no
/// record, neither of them empty. None of fewer than two records.
pub fn pair(rng: &mut Rng, records: usize) -> Option<(Edit, Edit)> {
    if records < 2 {
        return None;
    }
    let later = 1 + rng.below(records - 1);
    let first = rng.below(later);
    let count = if rng.one_in(2) { 1 } else { 1 + rng.below(later - first) };
    let earlier = Edit { first, count, new: replacement(rng) };
    let count = if rng.one_in(2) { 1 } else { 1 + rng.below(records - later) };
    Some((earlier, Edit { first: later, count, new: replacement(rng) }))
}

/// Nothing, or good records, now and then with a leg of style 5 behind them.
fn replacement(rng: &mut Rng) -> Vec<u8> {
    let mut new = if rng.one_in(6) { Vec::new() } else { some(rng) };
    if rng.one_in(12) {
        new.extend(laid(&[Leg::plain(b"a").body()]));
    }
    new
}

/// The later edit at its number once the earlier one is made.
pub fn shifted(earlier: &Edit, later: &Edit) -> Edit {
    let first = later.first - earlier.count + record_count(&earlier.new);
    Edit { first, ..later.clone() }
}

fn record_count(mut new: &[u8]) -> usize {
    let mut count = 0;
    while let Some((length, behind)) = new.split_first_chunk() {
        new = &behind[usize::from(u16::from_be_bytes(*length))..];
        count += 1;
    }
    count
}

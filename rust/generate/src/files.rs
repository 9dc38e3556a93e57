//! All files of a run: first the fixed ones, then rounds from the seed.

use crate::coder::Coder;
use crate::rng::Rng;
use crate::valid::{tour, valid};
use crate::{damage, edges, heads};

/// What a file is, or what was done to it.
#[derive(Clone, Copy, PartialEq, Eq, PartialOrd, Ord, Debug)]
pub enum Kind {
    /// A valid file, which must read.
    Valid,
    /// At the edge of a rule, good or refused.
    Edge,
    /// A header, good or wrong.
    Header,
    Cut,
    Changed,
    Inserted,
    Removed,
    /// A code replaced by another.
    Code,
    /// A label length replaced, mostly by a huge one.
    Length,
    /// Bytes after the end.
    After,
    /// Any bytes.
    Noise,
    /// Damaged more than once.
    Mixed,
}

/// The fixed files, the same in every run.
pub fn fixed() -> impl Iterator<Item = (Kind, Vec<u8>)> {
    let edges = edges::all().map(|bytes| (Kind::Edge, bytes));
    let heads = heads::all().map(|bytes| (Kind::Header, bytes));
    edges.chain(heads).chain((3..=8).flat_map(toured))
}

/// A tour, and all that can happen to one of its bytes.
fn toured(version: u8) -> Vec<(Kind, Vec<u8>)> {
    let Coder { bytes, items, .. } = tour(version);
    let mut files = vec![(Kind::Valid, bytes.clone())];
    files.extend(damage::cuts(&bytes).map(|cut| (Kind::Cut, cut)));
    files.extend(damage::changes(&bytes).map(|new| (Kind::Changed, new)));
    files.extend(damage::values(&bytes, &items).map(|new| (Kind::Code, new)));
    files.extend(damage::inserts(&bytes).map(|new| (Kind::Inserted, new)));
    files.extend(damage::removals(&bytes).map(|new| (Kind::Removed, new)));
    files
}

/// One round: a valid file and what damage makes of it.
pub fn round(seed: u64, round: u64) -> Vec<(Kind, Vec<u8>)> {
    let mut rng = Rng::new(seed, round);
    let version = 3 + (round % 6) as u8;
    let file = valid(&mut rng, version);
    let mut files = vec![(Kind::Valid, file.bytes.clone())];
    files.extend((0..9).map(|_| (Kind::Valid, valid(&mut rng, version).bytes)));
    // Every cut of a short file, now and then; else a few.
    if round.is_multiple_of(25) && file.bytes.len() < 400 {
        files.extend(damage::cuts(&file.bytes).map(|cut| (Kind::Cut, cut)));
    }
    for _ in 0..4 {
        files.push((Kind::Cut, file.bytes[..rng.below(file.bytes.len())].to_vec()));
        files.push((Kind::Changed, with(&file, |bytes| damage::flip(&mut rng, bytes))));
        files.push((Kind::Inserted, with(&file, |bytes| damage::insert(&mut rng, bytes))));
        files.push((Kind::Removed, with(&file, |bytes| damage::remove(&mut rng, bytes))));
        files.push((Kind::Length, damage::lengthen(&mut rng, &file)));
        files.push((Kind::Code, recoded(&mut rng, &file)));
        files.push((Kind::Mixed, mixed(&mut rng, &file)));
    }
    let mut after = file.bytes.clone();
    after.extend((0..1 + rng.below(3)).map(|_| rng.byte()));
    files.push((Kind::After, after));
    let head = file.items.first().map_or(&file.bytes[..], |&items| &file.bytes[..items]);
    files.push((Kind::Noise, damage::noise(&mut rng, head)));
    files
}

fn with(file: &Coder, damage: impl FnOnce(&mut Vec<u8>)) -> Vec<u8> {
    let mut bytes = file.bytes.clone();
    damage(&mut bytes);
    bytes
}

/// One item's code replaced by any other.
fn recoded(rng: &mut Rng, file: &Coder) -> Vec<u8> {
    let place = rng.pick(&file.items);
    damage::changed(&file.bytes, place, rng.byte())
}

fn mixed(rng: &mut Rng, file: &Coder) -> Vec<u8> {
    let mut bytes = file.bytes.clone();
    for _ in 0..2 + rng.below(3) {
        match rng.below(4) {
            0 => damage::insert(rng, &mut bytes),
            1 => damage::remove(rng, &mut bytes),
            _ => damage::flip(rng, &mut bytes),
        }
    }
    bytes
}

//! Files for strict reading: names that come again, stations that moved, sections
//! at no station.

use crate::coder::{Coder, LONGEST_LABEL};
use crate::damage;
use crate::rng::Rng;

/// Bytes that a name may have: none, all, and both sides of whole words.
const LENGTHS: [usize; 12] = [0, 1, 2, 3, 4, 5, 7, 8, 9, 16, 33, LONGEST_LABEL];

/// A name, and where its station stands.
type Named = (Vec<u8>, [i32; 3]);

/// Different names, some with a long common start.
fn names(rng: &mut Rng) -> Vec<Named> {
    let mut names: Vec<Named> = Vec::new();
    for _ in 0..1 + rng.below(12) {
        let length = if rng.one_in(9) { rng.pick(&LENGTHS) } else { rng.below(12) };
        let mut name = rng.name(length);
        if let Some((before, _)) = names.last().filter(|_| rng.one_in(2)) {
            let kept = rng.below(before.len() + 1);
            name = [&before[..kept], &name].concat();
            name.truncate(LONGEST_LABEL);
        }
        if names.iter().all(|(other, _)| *other != name) {
            names.push((name, rng.numbers()));
        }
    }
    names
}

/// How to go from the file's label to a name: bytes to drop, and where those to
/// add start. Before v8 that takes an item of its own.
fn change(rng: &mut Rng, file: &mut Coder, name: &[u8]) -> (usize, usize) {
    let common = file.label.iter().zip(name).take_while(|(a, b)| a == b).count();
    let off = file.label.len() - common;
    match file.version {
        8 => (off, common),
        _ if off == 0 => (0, common),
        _ if off <= 16 && common > 0 && rng.one_in(2) => {
            file.drop(off);
            (0, common)
        }
        _ => {
            file.empty();
            (0, 0)
        }
    }
}

/// A station at one of a name's places.
fn station(rng: &mut Rng, file: &mut Coder, (name, at): &Named) {
    let (off, from) = change(rng, file, name);
    let flags = if file.version == 8 && name.is_empty() { 0x20 } else { rng.below(0x20) as u8 };
    let mut at = *at;
    if rng.one_in(40) {
        at[rng.below(3)] ^= 1 << rng.below(32);
    }
    let form = rng.pick(&crate::coder::FORMS);
    file.station(flags, (off, &name[from..], form), at);
}

/// A file of stations and sections of the same few names.
fn file(rng: &mut Rng) -> Coder {
    let mut file = Coder::short(3 + rng.below(6) as u8);
    let names = names(rng);
    let mut seen: Vec<&Named> = Vec::new();
    for _ in 0..rng.below(40) {
        let named = &names[rng.below(names.len())];
        match rng.below(4) {
            0 if file.version >= 5 => {
                let known = seen.get(rng.below(seen.len() + 1)).filter(|_| !rng.one_in(20));
                let (name, _) = known.copied().unwrap_or(named);
                let (off, from) = change(rng, &mut file, name);
                let (sides, narrow) = (rng.sides(), rng.one_in(2));
                let form = rng.pick(&crate::coder::FORMS);
                file.section(0, (off, &name[from..], form), sides, narrow);
            }
            1 if rng.one_in(2) => {
                let (name, to) = named;
                if !file.placed || rng.one_in(3) {
                    file.move_to(rng.numbers());
                }
                let (off, from) = change(rng, &mut file, name);
                let form = rng.pick(&crate::coder::FORMS);
                file.leg(0, (off, &name[from..], form), *to);
            }
            _ => {
                station(rng, &mut file, named);
                seen.push(named);
            }
        }
    }
    file.close();
    file
}

/// The files of a round: one as it was made, and it with a byte or two changed.
pub fn round(seed: u64, round: u64) -> Vec<Vec<u8>> {
    let mut rng = Rng::new(seed, round);
    let whole = file(&mut rng).bytes;
    let mut damaged = whole.clone();
    damage::flip(&mut rng, &mut damaged);
    vec![whole, damaged]
}

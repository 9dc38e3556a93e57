//! Strict reading (#108): files of stations and sections of the same few names,
//! generated and damaged files, and files at the edges, with rooms for names of
//! every kind; what it accepts is what ordinary reading gives.

use cockledrift::{Reader, Record, RECORD_LIMIT};
use compare::{disagree, proved, seed};
use generate::coder::{Coder, Form};
use generate::{files, stations, Rng};
use second::Answer;
use std::collections::{HashMap, HashSet};

/// Files of stations and sections, and others, in a run.
const NAMED: u64 = 60_000;
const OTHERS: usize = 40_000;

/// How many calls gave each number.
type Seen = HashMap<u8, usize>;

/// Room for all different names of the stations before the first refused item.
fn exact(file: &[u8]) -> usize {
    let (mut reader, _) = Reader::open(file);
    let (mut out, mut names) = ([0; RECORD_LIMIT], HashSet::new());
    while let Ok(Some(found)) = reader.next(&mut out) {
        if let Record::Station(station) = found.record(&out) {
            names.insert(station.label.to_vec());
        }
    }
    names.iter().map(|name| name.len() + 32).sum()
}

fn number(answer: Answer) -> u8 {
    match answer {
        Answer::Done { .. } => 0,
        Answer::Refused { number, .. } => number,
    }
}

/// Both read a file alike, with rooms exact, one short, 31 bytes, none and longer.
fn alike(what: &str, file: &[u8], rng: &mut Rng, seen: &mut Seen) {
    let exact = exact(file);
    for names in [exact, exact.saturating_sub(1), 31, 0, exact + 1 + rng.below(70)] {
        let seed = rng.next();
        let seed = rng.pick(&[0, u64::MAX, seed]);
        match compare::read_strict(file, names, seed) {
            Ok(answer) => {
                beside_reading(what, file, answer, names >= exact);
                *seen.entry(number(answer)).or_default() += 1;
            }
            Err(difference) => disagree(&format!("strictly reading {what}"), file, &difference),
        }
    }
}

/// What strict reading accepts ordinary reading gives; where that refuses, it
/// refuses no later; and with room for all different names it is never full.
fn beside_reading(what: &str, file: &[u8], answer: Answer, ample: bool) {
    let mut sheet = vec![0; compare_room(file)];
    let read = proved::read(file, &mut sheet);
    match (answer, read) {
        (Answer::Done { .. }, _) => assert_eq!(answer, read, "{what}"),
        (Answer::Refused { number, place }, Answer::Refused { place: last, .. }) => {
            assert!(place <= last || number <= 3 || number == 16, "{what}");
        }
        (Answer::Refused { number, .. }, Answer::Done { .. }) => {
            assert!([18, 19, 22].contains(&number), "{what}");
        }
    }
    assert!(!ample || number(answer) != 22, "{what}");
}

fn compare_room(file: &[u8]) -> usize {
    match proved::read(file, &mut []) {
        Answer::Refused { number: 11, place } => place,
        _ => 0,
    }
}

#[test]
fn files_are_read_strictly_alike() {
    let (mut seen, mut rng) = (Seen::new(), Rng::new(seed(), 108));
    for round in 0..NAMED / 2 {
        for file in stations::round(seed(), round) {
            alike(&format!("a file of round {round}"), &file, &mut rng, &mut seen);
        }
    }
    println!("strictly, of few names: {seen:?}");
    for number in [0, 4, 5, 10, 18, 19, 22] {
        assert!(seen.get(&number).is_some_and(|count| *count > 100), "{number} in {seen:?}");
    }
}

#[test]
fn other_files_are_read_strictly_alike() {
    let (mut seen, mut rng, mut count) = (Seen::new(), Rng::new(seed(), 1080), 0);
    for (place, (_, file)) in files::fixed().enumerate().step_by(7) {
        alike(&format!("fixed file {place}"), &file, &mut rng, &mut seen);
    }
    for round in 0.. {
        for (_, file) in files::round(seed(), round) {
            alike(&format!("a file of round {round}"), &file, &mut rng, &mut seen);
            count += 1;
        }
        if count >= OTHERS {
            break;
        }
    }
    println!("strictly, of others: {seen:?}");
    assert!((0..=10).chain([18, 22]).all(|number| seen.contains_key(&number)), "{seen:?}");
}

const AT: [i32; 3] = [1, 2, 3];
const AWAY: [i32; 3] = [1, 2, 4];

/// A v8 file of these stations and sections, in order; a section has no place.
fn file(records: &[(&[u8], Option<[i32; 3]>)]) -> Vec<u8> {
    let mut file = Coder::short(8);
    for (name, at) in records {
        let change = (file.label.len(), *name, Form::Longest);
        match *at {
            Some(at) => file.station(0, change, at),
            None => file.section(0, change, [1; 4], true),
        };
    }
    file.close().bytes.clone()
}

/// The number of an item of such a file, and the answer with its place.
#[track_caller]
fn refused(records: &[(&[u8], Option<[i32; 3]>)], names: usize, due: u8, item: usize) {
    let file = file(records);
    let place = file_places(records)[item];
    let answer = compare::read_strict(&file, names, 5).expect("both answer alike");
    assert_eq!(answer, Answer::Refused { number: due, place });
}

/// Where each item of such a file starts.
fn file_places(records: &[(&[u8], Option<[i32; 3]>)]) -> Vec<usize> {
    (0..records.len()).map(|count| file(&records[..count]).len() - 2).collect()
}

#[test]
fn edges() {
    let (here, there) = (Some(AT), Some(AWAY));
    let long: &[u8] = &[b'x'; 4096];
    // A section before its station, and behind it.
    refused(&[(b"a", None), (b"a", here)], 99, 18, 0);
    accept_whole(&[(b"a", here), (b"a", None)], 33);
    // The same name at the same place takes no more room; at another it is refused.
    accept_whole(&[(b"a", here), (b"b", here), (b"a", here)], 66);
    refused(&[(b"a", here), (b"b", here), (b"a", there)], 66, 19, 2);
    // 22: one byte short, at the first name that does not fit; 19 comes before it.
    refused(&[(b"a", here), (b"b", here)], 65, 22, 1);
    refused(&[(b"a", here), (b"a", there)], 33, 19, 1);
    refused(&[(b"a", here), (b"a", there)], 32, 22, 0);
    // A shorter name behind one that does not fit is never reached.
    refused(&[(b"abc", here), (b"abcdefgh", here), (b"", here)], 70, 22, 1);
    // Names of no bytes and of 4,096.
    accept_whole(&[(b"", here), (long, here), (b"", None), (long, None)], 32 + 4128);
    refused(&[(b"", here), (long, here)], 32 + 4127, 22, 1);
    refused(&[(b"", here), (b"", there)], 999, 19, 1);
    refused(&[(b"", None)], 0, 18, 0);
    refused(&[(b"", here)], 31, 22, 0);
    refused(&[(long, here), (&long[1..], None)], 9999, 18, 1);
}

/// Accepted with just this room, and full with a byte less.
#[track_caller]
fn accept_whole(records: &[(&[u8], Option<[i32; 3]>)], names: usize) {
    accepted_at(records, names);
    let file = file(records);
    let less = compare::read_strict(&file, names - 1, 5).expect("both answer alike");
    assert_eq!(number(less), 22);
}

#[track_caller]
fn accepted_at(records: &[(&[u8], Option<[i32; 3]>)], names: usize) {
    let file = file(records);
    let answer = compare::read_strict(&file, names, 5).expect("both answer alike");
    assert_eq!(number(answer), 0);
}

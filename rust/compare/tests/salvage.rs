//! Salvaging (#111): generated and damaged files, and every cut of good files of each version,
//! at several buffer lengths; what is saved is the front of the whole file's sheet.

use compare::{disagree, proved, seed};
use generate::files::{fixed, round};
use generate::Kind;
use second::{Answer, Opened, Salvaged};

/// Files that are damaged in a run.
const FILES: usize = 100_000;

/// What both save of a file, and what the report's number is: 0 for a whole file.
fn saved(what: &str, file: &[u8]) -> Salvaged {
    match compare::salvage(file) {
        Ok(saved) => {
            as_reading_says(what, file, saved);
            saved
        }
        Err(difference) => disagree(&format!("salvaging {what}"), file, &difference),
    }
}

/// The report is the refusal of ordinary reading, or 0 and the length of a file that reads.
fn as_reading_says(what: &str, file: &[u8], saved: Salvaged) {
    let read = proved::read(file, &mut []);
    match (saved, read) {
        (Salvaged::Refused { number, place }, Answer::Refused { number: also, place: at }) => {
            assert_eq!((number, place), (also, at), "{what}");
        }
        (Salvaged::Saved { number: 0, place, left: 0, bytes, .. }, _) => {
            assert_eq!(place, file.len(), "{what}");
            assert_eq!(read, Answer::Refused { number: 11, place: bytes }, "{what}");
        }
        (Salvaged::Saved { number, place, left, .. }, _) => {
            assert_eq!(read, Answer::Refused { number, place }, "{what}");
            assert_eq!(place + left, file.len(), "{what}");
        }
        (_, Answer::Done { .. }) => panic!("{what}: a sheet of no bytes"),
    }
}

#[test]
fn files_are_salvaged_alike() {
    let mut seen = [0; 17];
    let mut count = 0;
    let mut each = |what: &str, file: &[u8]| {
        let number = match saved(what, file) {
            Salvaged::Saved { number, .. } | Salvaged::Refused { number, .. } => number,
        };
        seen[usize::from(number)] += 1;
        count += 1;
        count
    };
    for (number, (_, file)) in fixed().enumerate() {
        each(&format!("fixed file {number}"), &file);
    }
    for number in 0.. {
        let mut total = 0;
        for (_, file) in round(seed(), number) {
            total = each(&format!("a file of round {number}"), &file);
        }
        if total >= FILES {
            break;
        }
    }
    println!("salvaging: by the report's number {seen:?}");
    assert!((0..=10).all(|number| seen[number] > 0), "{seen:?}");
}

/// Every cut of good files of each version, and each with a byte behind its end: the sheet is
/// the front of the whole file's, and with bytes behind the end it is the whole.
#[test]
fn cuts_keep_the_front_of_the_sheet() {
    let mut versions = [0; 9];
    for number in 0.. {
        for (kind, file) in round(seed(), number) {
            if kind != Kind::Valid || file.len() > 400 {
                continue;
            }
            let (_, opened) = second::open(&file);
            let Opened::At { version, place } = opened else { panic!("a good file is refused") };
            let whole = cockledrift_sheet(&file);
            for cut in place..file.len() {
                let front = cockledrift_sheet(&file[..cut]);
                assert!(whole.starts_with(&front), "{number}, cut at {cut}");
                saved(&format!("a file of round {number}, cut at {cut}"), &file[..cut]);
            }
            let mut longer = file.clone();
            longer.push(0);
            assert_eq!(cockledrift_sheet(&longer), whole);
            versions[usize::from(version)] += 1;
        }
        if versions[3..].iter().all(|count| *count >= 20) {
            break;
        }
    }
}

/// The proved library's sheet of what can be saved.
fn cockledrift_sheet(file: &[u8]) -> Vec<u8> {
    let Salvaged::Refused { number: 11, place } = proved::salvage(file, &mut []) else {
        panic!("a header that reads wants room")
    };
    let mut sheet = vec![0; place];
    proved::salvage(file, &mut sheet);
    sheet
}

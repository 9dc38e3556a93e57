//! Several threads at once, on the same bytes: each answer is what one thread
//! alone gets.

use cockledrift::{compare, edit_vec, Found, Later, Reader, Record, Refusal, Sheet, RECORD_LIMIT};
use interface::tools::survex_files;
use std::fs;
use std::thread;

const THREADS: usize = 8;
const TIMES: usize = 1000;

/// What all calls come to on two files.
#[derive(PartialEq, Eq, Debug)]
struct All {
    sheet: Vec<u8>,
    v8: Vec<u8>,
    v7: Result<Vec<u8>, Refusal>,
    edited: Vec<u8>,
    later: String,
    steps: Vec<Found>,
    labels: Vec<u8>,
}

fn all(file: &[u8], other: &[u8]) -> All {
    let sheet = Sheet::read(file).expect("a good file");
    let v8 = sheet.write().expect("a good sheet");
    let mut new = Vec::new();
    sheet.records().last().expect("a record").lay(&mut new);
    let edited = edit_vec(&v8, 0, 1, &new).expect("a good edit");
    let later: Result<Later, _> = compare(file, other);
    let (mut reader, _) = Reader::open(file);
    let (mut out, mut steps, mut labels) = ([0; RECORD_LIMIT], Vec::new(), Vec::new());
    while let Some(found) = reader.next(&mut out).expect("a good file") {
        let record: Record = found.record(&out);
        labels.extend(record.label());
        steps.push(found);
    }
    let later = format!("{later:?}");
    All { v7: sheet.write_v7(), sheet: sheet.into_bytes(), v8, edited, later, steps, labels }
}

#[test]
fn threads_do_not_meet() {
    let files: Vec<_> = survex_files().iter().map(|path| fs::read(path).expect("a file")).collect();
    let pairs: Vec<_> = files.iter().zip(files.iter().cycle().skip(1)).collect();
    let due: Vec<All> = pairs.iter().map(|(file, other)| all(file, other)).collect();
    thread::scope(|scope| {
        for thread in 0..THREADS {
            let (pairs, due) = (&pairs, &due);
            scope.spawn(move || {
                for time in 0..TIMES {
                    // Half of the threads are on the same file, the others on any.
                    let place = (time + (thread % 2) * thread) % pairs.len();
                    let (file, other) = pairs[place];
                    assert_eq!(all(file, other), due[place], "thread {thread}");
                }
            });
        }
    });
}

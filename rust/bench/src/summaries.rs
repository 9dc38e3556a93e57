//! The summary of a million records (#109): making it, questions to it against looking at each
//! record, and bringing it up to date against making it afresh.

use cockledrift::{entrances, summarize, summary_words, update_summary, Entrances};
use generate::record::{short_sheet, station, Body, Leg, VERSION_2};
use generate::Rng;
use std::hint::black_box;
use std::ops::Range;
use std::time::{Duration, Instant};

const RECORDS: usize = 1_000_000;
const QUESTIONS: usize = 1_000;

/// The header of a short sheet, with its version byte and its length bytes.
const FRONT: usize = 10;

pub fn report(repeats: usize) {
    let sheet = sheet();
    let mut words = vec![0; summary_words(RECORDS)];
    println!("summary: sheet {} bytes of {RECORDS} records", sheet.len());
    let made = median(repeats, || summarize(black_box(&sheet), &mut words).expect("a good sheet"));
    println!("  made: median {:.2} ms", made.as_secs_f64() * 1e3);
    questions(&sheet, &words, repeats);
    updates(&sheet, repeats);
}

/// Two stations for a leg; a station in a hundred is an entrance.
fn sheet() -> Vec<u8> {
    let mut rng = Rng::new(10, 109);
    let body = |number: usize| -> Body {
        let label = rng.name(20);
        match number % 3 {
            0 => Leg::plain(&label).body(),
            _ => station(if rng.one_in(100) { 4 } else { 0 }, [0; 3], &label),
        }
    };
    short_sheet(VERSION_2, &(0..RECORDS).map(body).collect::<Vec<_>>())
}

fn median<T>(repeats: usize, mut call: impl FnMut() -> T) -> Duration {
    let mut times: Vec<_> = (0..repeats)
        .map(|_| {
            let start = Instant::now();
            black_box(call());
            start.elapsed()
        })
        .collect();
    times.sort();
    times[repeats / 2]
}

/// The answer of looking at each record.
fn looked(sheet: &[u8], range: Range<usize>) -> Entrances {
    let (mut rest, mut number, mut count, mut next) = (&sheet[FRONT..], 0, 0, None);
    while let [high, low, kind, flags, ..] = *rest {
        if number >= range.end && next.is_some() {
            break;
        }
        if number >= range.start && kind == 2 && flags & 4 != 0 {
            count += u64::from(number < range.end);
            next = next.or(Some(number));
        }
        rest = &rest[2 + usize::from(u16::from_be_bytes([high, low]))..];
        number += 1;
    }
    Entrances { count, next }
}

fn questions(sheet: &[u8], words: &[u64], repeats: usize) {
    let mut rng = Rng::new(10, 110);
    let mut range = || {
        let (a, b) = (rng.below(RECORDS + 1), rng.below(RECORDS + 1));
        a.min(b)..a.max(b)
    };
    let ranges: Vec<_> = (0..QUESTIONS).map(|_| range()).collect();
    let ask = |range: &Range<usize>| {
        entrances(black_box(words), RECORDS as u32, range.clone()).expect("a question")
    };
    for range in ranges.iter().take(20) {
        assert_eq!(ask(range), looked(sheet, range.clone()));
    }
    let asked = median(repeats, || {
        ranges.iter().map(|range| ask(range).count).fold(0, |sum: u64, count| sum ^ count)
    });
    let middle = RECORDS / 4..RECORDS / 4 * 3;
    let looking = median(repeats, || looked(black_box(sheet), middle.clone()));
    let one = asked.as_secs_f64() * 1e9 / QUESTIONS as f64;
    println!("  a question: {one:.1} ns, the mean of {QUESTIONS} in a row");
    println!("  looking at each record: median {:.3} ms", looking.as_secs_f64() * 1e3);
}

/// Ten records make way for one, at the front, in the middle and at the end.
fn updates(sheet: &[u8], repeats: usize) {
    let new = &short_sheet(VERSION_2, &[station(4, [0; 3], b"a")])[FRONT..];
    let mut made = vec![0; summary_words(RECORDS)];
    summarize(sheet, &mut made).expect("a good sheet");
    for (what, first) in [("front", 0), ("middle", RECORDS / 2), ("end", RECORDS - 10)] {
        let mut words = made.clone();
        let mut times: Vec<_> = (0..repeats)
            .map(|_| {
                words.copy_from_slice(&made);
                let start = Instant::now();
                let taken = update_summary(black_box(&mut words), RECORDS as u32, first, 10, new);
                black_box(taken).expect("an update");
                start.elapsed()
            })
            .collect();
        times.sort();
        let micros = times[repeats / 2].as_secs_f64() * 1e6;
        println!("  an update, at the {what}: median {micros:.1} µs");
    }
}

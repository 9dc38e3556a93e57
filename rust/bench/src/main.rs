//! The proved reader, writer and editor against the second implementation's, and
//! steps to the end and an edit against the proved reader, in time: one run, one
//! thread, the two taking turns.
//!
//! `bench turns` prints that; another argument asks for another number of repetitions. Without
//! it, `tables` prints the tables of docs/PERFORMANCE.md.

use compare::proved;
use generate::coder::{Coder, Form};
use generate::Rng;
use second::{Answer, Reach};
use std::hint::black_box;
use std::time::{Duration, Instant};

mod strict;
mod summaries;

const TEN_MIB: usize = 10 * 1024 * 1024;
const REPEATS: usize = 21;

type Function = fn(&[u8], &mut [u8]) -> Answer;

mod tables;

/// The tables of docs/PERFORMANCE.md; with the argument `turns`, what this file measures.
fn main() -> std::process::ExitCode {
    if std::env::args().nth(1).as_deref() != Some("turns") {
        return tables::main();
    }
    in_turns();
    std::process::ExitCode::SUCCESS
}

fn in_turns() {
    let repeats = std::env::args().nth(2).map_or(REPEATS, |count| count.parse().expect("a count"));
    println!("{repeats} repetitions, the two taking turns, each first every other time");
    println!("buffers: allocated once, the same one for both, and filled with a pattern");
    println!("before each run, so all their pages have been touched; filling is not timed");
    for version in [8, 3, 7] {
        let file = legs(version);
        versions(&format!("v{version}"), "legs", &file, repeats);
    }
    versions("v8", "stations, cross-sections and legs in turn", &mixed(), repeats);
    older(repeats);
    edits(repeats);
    reaches(repeats);
    views(repeats);
    summaries::report(repeats);
    strict::report(repeats);
}

/// The legs of a sheet for the viewer, in room for just their numbers.
fn views(repeats: usize) {
    for (what, sheet) in [("legs", read_sheet(&legs(8))), ("records in turn", read_sheet(&mixed()))]
    {
        println!("viewer: sheet {} bytes of {what}", sheet.len());
        let length = needed(view::second, &sheet);
        let pair = Pair { proved: view::proved, other: view::second, against: "second" };
        report("viewer legs", &sheet, length, pair, repeats);
    }
}

mod view {
    use super::{proved, Answer};
    use ::second::Viewed;

    const ORIGIN: [i32; 3] = [100, -200, 300];

    pub fn proved(sheet: &[u8], lent: &mut [u8]) -> Answer {
        answered(proved::viewer_legs(sheet, ORIGIN, numbers(lent)))
    }

    pub fn second(sheet: &[u8], lent: &mut [u8]) -> Answer {
        answered(::second::viewer_legs(sheet, ORIGIN, numbers(lent)))
    }

    /// What is lent, as numbers.
    fn numbers(lent: &mut [u8]) -> &mut [f32] {
        // SAFETY: any four bytes are a number.
        let (before, numbers, behind) = unsafe { lent.align_to_mut() };
        assert!(before.is_empty() && behind.is_empty(), "bytes of whole numbers");
        numbers
    }

    /// The bytes of the numbers, or that are needed.
    fn answered(viewed: Viewed) -> Answer {
        match viewed {
            Viewed::Done { legs } => Answer::Done { bytes: 24 * legs, records: legs, version: 0 },
            Viewed::Refused { number, place } => Answer::Refused { number, place: 4 * place },
        }
    }
}

/// How far the legs of a sheet reach: of all of them, of a survey that all are in, and of one that
/// a leg in 28 is in. Nothing is lent but the sheet.
fn reaches(repeats: usize) {
    for (what, sheet) in [("legs", read_sheet(&legs(8))), ("records in turn", read_sheet(&mixed()))]
    {
        println!("reach: sheet {} bytes of {what}", sheet.len());
        let pair = |proved, other| Pair { proved, other, against: "second" };
        report("reach of all", &sheet, 0, pair(reach::proved_all, reach::second_all), repeats);
        report(
            "reach of a survey",
            &sheet,
            0,
            pair(reach::proved_most, reach::second_most),
            repeats,
        );
        report("reach of few", &sheet, 0, pair(reach::proved_few, reach::second_few), repeats);
    }
}

mod reach {
    use super::{answered, proved, Answer};

    const MOST: &[u8] = b"cave.series";
    const FEW: &[u8] = b"cave.series.passage.a";

    pub fn proved_all(sheet: &[u8], _: &mut [u8]) -> Answer {
        answered(proved::reach(sheet, &FEW[..0]))
    }

    pub fn second_all(sheet: &[u8], _: &mut [u8]) -> Answer {
        answered(second::reach(sheet, &FEW[..0]))
    }

    pub fn proved_most(sheet: &[u8], _: &mut [u8]) -> Answer {
        answered(proved::reach(sheet, MOST))
    }

    pub fn second_most(sheet: &[u8], _: &mut [u8]) -> Answer {
        answered(second::reach(sheet, MOST))
    }

    pub fn proved_few(sheet: &[u8], _: &mut [u8]) -> Answer {
        answered(proved::reach(sheet, FEW))
    }

    pub fn second_few(sheet: &[u8], _: &mut [u8]) -> Answer {
        answered(second::reach(sheet, FEW))
    }
}

/// A reach as an answer: the sum of the bounds for bytes, the legs for records.
fn answered(reach: Reach) -> Answer {
    let Reach::Reached { least, greatest, legs } = reach else { panic!("{reach:?}") };
    let mut bytes = 0;
    for number in [least, greatest].concat() {
        bytes = bytes * 3 + number as u32 as usize;
    }
    Answer::Done { bytes, records: legs, version: 0 }
}

/// The sheet of the v7 file of legs, written as v7.
fn older(repeats: usize) {
    let sheet = read_sheet(&legs(7));
    println!("v7 written: sheet {} bytes of legs", sheet.len());
    let writing = Pair { proved: proved::write_v7, other: second::write_v7, against: "second" };
    report("write v7", &sheet, needed(second::write_v7, &sheet), writing, repeats);
}

/// Ten records in the middle of a house-written file make way for a station.
fn edits(repeats: usize) {
    let sheet = read_sheet(&legs(8));
    let mut file = vec![0; needed(second::write, &sheet)];
    second::write(&sheet, &mut file);
    println!("v8: house-written file {} bytes", file.len());
    let room = needed(second_edit, &file);
    let editing = Pair { proved: proved_edit, other: second_edit, against: "second" };
    report("edit", &file, room, editing, repeats);
    let reading = Pair { proved: proved_edit, other: proved::read, against: "read" };
    times("edit", &file, &mut vec![0x5a; room.max(sheet.len())], reading, repeats);
}

/// A station `a` at the origin, with its length bytes.
const STATION: [u8; 17] = [0, 15, 2, 0, 0, 0, 0, 0, 0, 0, 0, 0, 0, 0, 0, 0, b'a'];

fn proved_edit(file: &[u8], out: &mut [u8]) -> Answer {
    proved::edit(file, 300_000, 10, &STATION, out)
}

fn second_edit(file: &[u8], out: &mut [u8]) -> Answer {
    second::edit(file, 300_000, 10, &STATION, out)
}

/// Reads and writes a file.
fn versions(version: &str, what: &str, file: &[u8], repeats: usize) {
    let sheet = read_sheet(file);
    let bytes = (file.len(), sheet.len());
    println!("{version}: file {} bytes of {what}, sheet {} bytes", bytes.0, bytes.1);
    let reading = Pair { proved: proved::read, other: second::read, against: "second" };
    report("read", file, sheet.len(), reading, repeats);
    let writing = Pair { proved: proved::write, other: second::write, against: "second" };
    report("write", &sheet, needed(second::write, &sheet), writing, repeats);
    for (what, proved) in [("steps", steps::by_steps as Function), ("records", steps::by_records)] {
        let stepping = Pair { proved, other: proved::read, against: "read" };
        report(what, file, sheet.len(), stepping, repeats);
    }
}

/// Steps to the end, each record behind the last in the sheet.
mod steps {
    use compare::proved::Reader;
    use second::{Answer, Opened, Step};

    pub fn by_steps(file: &[u8], sheet: &mut [u8]) -> Answer {
        gathered(file, sheet, |reader, out| reader.step(out))
    }

    pub fn by_records(file: &[u8], sheet: &mut [u8]) -> Answer {
        gathered(file, sheet, |reader, out| reader.next(out))
    }

    fn gathered(
        file: &[u8],
        sheet: &mut [u8],
        step: impl Fn(&mut Reader, &mut [u8]) -> Step,
    ) -> Answer {
        let (mut reader, opened) = Reader::open(file);
        let Opened::At { version, .. } = opened else { panic!("{opened:?}") };
        let (mut bytes, mut records) = (front(file, version, sheet), 0);
        loop {
            match step(&mut reader, &mut sheet[bytes..]) {
                Step::Record { bytes: size, .. } => {
                    bytes += size;
                    records += 1;
                }
                Step::Nothing => {}
                Step::End => return Answer::Done { bytes, records, version },
                refused => panic!("{refused:?}"),
            }
        }
    }

    /// The sheet's version byte and header, which no step answers.
    fn front(file: &[u8], version: u8, sheet: &mut [u8]) -> usize {
        let mut lines = file[24..].split(|byte| *byte == b'\n');
        let mut line = || lines.next().expect("a line");
        let (title, time) = (line(), line());
        let flags = if version == 8 { file[26 + title.len() + time.len()] } else { 0 };
        let length = 4 + title.len() + time.len();
        let be16 = |number: usize| (number as u16).to_be_bytes();
        let mut bytes = vec![2];
        bytes.extend(be16(length));
        bytes.extend([0, flags >> 7]);
        bytes.extend(be16(title.len()));
        bytes.extend(title);
        bytes.extend(time);
        sheet[..bytes.len()].copy_from_slice(&bytes);
        bytes.len()
    }
}

/// A file of 10 MiB, one MOVE and then legs, whose labels differ in the last
/// four bytes. v3 to v7 drop these by a code of its own.
fn legs(version: u8) -> Vec<u8> {
    let mut rng = Rng::new(10, u64::from(version));
    let mut coder = Coder::short(version);
    coder.move_to([0; 3]).leg(0, (0, b"cave.series.passage.0000", Form::Least), [0; 3]);
    while coder.bytes.len() < TEN_MIB - 22 {
        let end = rng.name(4);
        let to = [0; 3].map(|_: i32| rng.next() as i32 >> 8);
        if version == 8 {
            coder.leg(0, (4, &end, Form::Least), to);
        } else {
            coder.drop(4).leg(0, (0, &end, Form::Least), to);
        }
    }
    coder.close();
    coder.bytes
}

/// A v8 file of 10 MiB with as many stations and cross-sections as legs, whose labels
/// differ in the last four bytes. Every other section has i32 dimensions.
fn mixed() -> Vec<u8> {
    let mut rng = Rng::new(10, 80);
    let mut coder = Coder::short(8);
    coder.move_to([0; 3]).leg(0, (0, b"cave.series.passage.0000", Form::Least), [0; 3]);
    let mut narrow = true;
    while coder.bytes.len() < TEN_MIB - 80 {
        let mut end = || rng.name(4);
        let names = [end(), end(), end()];
        let at = [0; 3].map(|_: i32| rng.next() as i32 >> 8);
        coder.station(0, (4, &names[0], Form::Least), at);
        coder.section(0, (4, &names[1], Form::Least), [100, 200, 150, -1], narrow);
        coder.leg(0, (4, &names[2], Form::Least), at);
        narrow = !narrow;
    }
    coder.close();
    coder.bytes
}

fn needed(function: Function, input: &[u8]) -> usize {
    match function(input, &mut []) {
        Answer::Refused { number: 11, place } => place,
        other => panic!("no buffer length: {other:?}"),
    }
}

fn read_sheet(file: &[u8]) -> Vec<u8> {
    let mut sheet = vec![0; needed(second::read, file)];
    second::read(file, &mut sheet);
    sheet
}

#[derive(Clone, Copy)]
struct Pair {
    proved: Function,
    other: Function,
    against: &'static str,
}

/// The times of two that answer the same and leave the same bytes.
fn report(what: &str, input: &[u8], length: usize, pair: Pair, repeats: usize) {
    let mut lent = vec![0x5a; length];
    agree(input, &mut lent, pair);
    times(what, input, &mut lent, pair, repeats);
}

fn times(what: &str, input: &[u8], lent: &mut [u8], pair: Pair, repeats: usize) {
    let (mut proved, mut other) = (Vec::new(), Vec::new());
    for turn in 0..repeats {
        if turn % 2 == 0 {
            proved.push(timed(pair.proved, input, lent));
            other.push(timed(pair.other, input, lent));
        } else {
            other.push(timed(pair.other, input, lent));
            proved.push(timed(pair.proved, input, lent));
        }
    }
    let ratio = |one: Duration, other: Duration| one.as_secs_f64() / other.as_secs_f64();
    let mut turns: Vec<f64> = proved.iter().zip(&other).map(|(a, b)| ratio(*a, *b)).collect();
    turns.sort_by(f64::total_cmp);
    proved.sort();
    other.sort();
    let middle = repeats / 2;
    line(&format!("{what}, proved"), proved[middle], proved[0]);
    line(&format!("{what}, {}", pair.against), other[middle], other[0]);
    let (median, best) = (ratio(proved[middle], other[middle]), ratio(proved[0], other[0]));
    let turn = turns[middle];
    println!(
        "  {what} against {}: ratio of medians {median:.3}, of bests {best:.3}, \
         median by turns {turn:.3}",
        pair.against
    );
}

/// Both must answer the same and leave the same bytes.
fn agree(input: &[u8], lent: &mut [u8], pair: Pair) {
    let proved = (pair.proved)(input, lent);
    let bytes = lent.to_vec();
    assert!(matches!(proved, Answer::Done { .. }), "{proved:?}");
    lent.fill(0);
    assert_eq!((pair.other)(input, lent), proved);
    assert!(bytes == lent, "the bytes differ");
}

fn timed(function: Function, input: &[u8], lent: &mut [u8]) -> Duration {
    lent.fill(0xa5);
    black_box(&mut *lent);
    let start = Instant::now();
    let answer = function(black_box(input), lent);
    let took = start.elapsed();
    black_box((answer, lent));
    took
}

fn line(what: &str, median: Duration, best: Duration) {
    let ms = |time: Duration| time.as_secs_f64() * 1000.0;
    println!("  {what}: median {:.2} ms, best {:.2} ms", ms(median), ms(best));
}

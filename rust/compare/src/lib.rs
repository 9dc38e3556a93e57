//! Holds the proved library against the second implementation: the same
//! bytes in, the same answers and the same lent bytes out.

mod lent;
pub mod proved;
mod run;

pub use lent::{disagree, hex, same, Call, Difference, Fills};
pub use run::{edits_wanted, files_wanted, seed, sheets_wanted, Tally};

use generate::Edit;
use second::{Answer, Entrances, Later, Reach, Salvaged, Summary, Viewed};
use std::cell::RefCell;

/// Reading, at several buffer lengths. Answers what an ample buffer gives.
pub fn read(file: &[u8]) -> Result<Answer, Difference> {
    read_by(&proved::read, file)
}

type Reader<'r> = &'r dyn Fn(&[u8], &mut [u8]) -> Answer;

/// The same with another function for the proved one.
pub fn read_by(proved: Reader, file: &[u8]) -> Result<Answer, Difference> {
    let needed = need(second::read(file, &mut []));
    one_buffer(needed, 3 * file.len() + 100, &|sheet, _| proved(file, sheet), &|sheet, _| {
        second::read(file, sheet)
    })
}

/// Salvaging, likewise: the answer that is compared is that of reading, and the reports must be
/// the same at every length.
pub fn salvage(file: &[u8]) -> Result<Salvaged, Difference> {
    let mut report = None;
    let reports = RefCell::new(Vec::new());
    let by = |salvage: fn(&[u8], &mut [u8]) -> Salvaged, sheet: &mut [u8]| {
        let saved = salvage(file, sheet);
        reports.borrow_mut().push(saved);
        plain(saved)
    };
    let needed = need(plain(second::salvage(file, &mut [])));
    let ample = 3 * file.len() + 100;
    let answer = one_buffer(needed, ample, &|sheet, _| by(proved::salvage, sheet), &|sheet, _| {
        by(second::salvage, sheet)
    })?;
    for pair in reports.borrow().chunks(2) {
        assert_eq!(pair[0], pair[1], "salvaging {}", hex(file));
        report = Some(pair[0]);
    }
    let last = report.expect("several lengths were tried");
    assert_eq!(plain(last), answer);
    Ok(last)
}

/// Reading strictly, with room of so many bytes for names, at several lengths of
/// the sheet: however it ends, the room holds zeros.
pub fn read_strict(file: &[u8], names: usize, seed: u64) -> Result<Answer, Difference> {
    let cleared = |answer: Answer, room: &[u8]| {
        assert!(room.iter().all(|byte| *byte == 0), "the room of {}", hex(file));
        answer
    };
    let proved = |sheet: &mut [u8], room: &mut [u8]| {
        cleared(proved::read_strict(file, sheet, room, seed), room)
    };
    let second = |sheet: &mut [u8], room: &mut [u8]| second::read_strict(file, sheet, room);
    let same = |length| same(Fills::Cleared, &proved, &second, (length, names));
    let Some(exact) = need(second(&mut [], &mut vec![0; names])) else {
        same(0)?;
        return same(3 * file.len() + 100);
    };
    for length in [0, exact - 1, exact] {
        same(length)?;
    }
    same(exact + 1 + exact % 40)
}

/// What salvaging answers but for its report.
fn plain(saved: Salvaged) -> Answer {
    match saved {
        Salvaged::Saved { bytes, records, version, .. } => Answer::Done { bytes, records, version },
        Salvaged::Refused { number, place } => Answer::Refused { number, place },
    }
}

/// Writing, likewise.
pub fn write(sheet: &[u8]) -> Result<Answer, Difference> {
    write_by(&proved::write, sheet)
}

pub fn write_by(proved: Reader, sheet: &[u8]) -> Result<Answer, Difference> {
    written_by(proved, &second::write, sheet)
}

/// Writing v7, likewise.
pub fn write_v7(sheet: &[u8]) -> Result<Answer, Difference> {
    written_by(&proved::write_v7, &second::write_v7, sheet)
}

fn written_by(proved: Reader, second: Reader, sheet: &[u8]) -> Result<Answer, Difference> {
    let needed = need(second(sheet, &mut []));
    one_buffer(needed, sheet.len() + 100, &|out, _| proved(sheet, out), &|out, _| {
        second(sheet, out)
    })
}

/// The length that 11 asks for; nothing after another refusal.
fn need(answer: Answer) -> Option<usize> {
    match answer {
        Answer::Refused { number: 11, place } => Some(place),
        Answer::Refused { .. } => None,
        Answer::Done { .. } => Some(0),
    }
}

/// Buffers of no bytes, one short, exact and longer; after a refusal, of no
/// bytes and of enough that a hasty reader would have written.
fn one_buffer(
    needed: Option<usize>,
    ample: usize,
    proved: &Call,
    second: &Call,
) -> Result<Answer, Difference> {
    let same = |length| same(Fills::First, proved, second, (length, 0));
    let Some(exact) = needed else {
        same(0)?;
        return same(ample);
    };
    for length in [0, exact / 2, exact.saturating_sub(1), exact] {
        same(length)?;
    }
    same(exact + 1 + exact % 40)
}

type Converter<'r> = &'r dyn Fn(&[u8], &mut [u8], &mut [u8]) -> Answer;

/// Converting, with both buffers at several lengths.
pub fn convert(file: &[u8]) -> Result<Answer, Difference> {
    convert_by(&proved::convert, file)
}

pub fn convert_by(proved: Converter, file: &[u8]) -> Result<Answer, Difference> {
    let proved = |sheet: &mut [u8], out: &mut [u8]| proved(file, sheet, out);
    let second = |sheet: &mut [u8], out: &mut [u8]| second::convert(file, sheet, out);
    let same = |sheet, out| same(Fills::Both, &proved, &second, (sheet, out));
    let Some(sheet) = need(second::read(file, &mut [])) else {
        same(0, 0)?;
        return same(3 * file.len() + 100, file.len() + 100);
    };
    let Some(out) = need(second(&mut vec![0; sheet], &mut [])) else {
        same(sheet, 0)?;
        return same(sheet + 9, 16_777_216);
    };
    for (sheet, out) in [(0, 0), (sheet - 1, out), (sheet, 0), (sheet, out - 1), (sheet, out)] {
        same(sheet, out)?;
    }
    same(sheet + 1 + sheet % 40, out + 1 + out % 40)
}

type Editor<'r> = &'r dyn Fn(&[u8], usize, usize, &[u8], &mut [u8]) -> Answer;

/// Editing, at several buffer lengths.
pub fn edit(file: &[u8], edit: &Edit) -> Result<Answer, Difference> {
    edit_by(&proved::edit, file, edit)
}

pub fn edit_by(proved: Editor, file: &[u8], edit: &Edit) -> Result<Answer, Difference> {
    let Edit { first, count, new } = edit;
    let by = |editor: Editor, out: &mut [u8]| editor(file, *first, *count, new, out);
    let needed = need(by(&second::edit, &mut []));
    let ample = file.len() + new.len() + 100;
    one_buffer(needed, ample, &|out, _| by(proved, out), &|out, _| by(&second::edit, out))
}

/// Which is later: the answer, and the very same part of the same file.
pub fn later<'a>(first: &'a [u8], other: &'a [u8]) -> Result<(Later, &'a [u8]), String> {
    later_by(proved::compare(first, other), second::compare(first, other))
}

pub fn later_by<'a>(
    proved: (Later, &'a [u8]),
    second: (Later, &'a [u8]),
) -> Result<(Later, &'a [u8]), String> {
    let part = |part: &[u8]| (!part.is_empty()).then_some((part.as_ptr(), part.len()));
    if proved.0 == second.0 && part(proved.1) == part(second.1) {
        return Ok(second);
    }
    Err(format!(
        "proved {:?} with {}\nsecond {:?} with {}",
        proved.0,
        hex(proved.1),
        second.0,
        hex(second.1)
    ))
}

/// How far a survey reaches.
pub fn reach(sheet: &[u8], name: &[u8]) -> Result<Reach, String> {
    reach_by(proved::reach(sheet, name), second::reach(sheet, name))
}

pub fn reach_by(proved: Reach, second: Reach) -> Result<Reach, String> {
    if proved == second {
        return Ok(second);
    }
    Err(format!("proved {proved:?}\nsecond {second:?}"))
}

/// Legs for the viewer, at several buffer lengths. Answers what an ample buffer gives, and the
/// bits of its numbers.
pub fn viewer_legs(sheet: &[u8], origin: [i32; 3]) -> Result<(Viewed, Vec<u32>), String> {
    viewer_legs_by(sheet, origin, &proved::viewer_legs, &second::viewer_legs)
}

pub type Viewer<'v> = dyn Fn(&[u8], [i32; 3], &mut [f32]) -> Viewed + 'v;

pub fn viewer_legs_by(
    sheet: &[u8],
    origin: [i32; 3],
    proved: &Viewer,
    second: &Viewer,
) -> Result<(Viewed, Vec<u32>), String> {
    let needed = match second(sheet, origin, &mut []) {
        Viewed::Refused { number: 11, place } => place,
        _ => 0,
    };
    let mut ample = Err("nothing was asked".to_string());
    for room in [0, needed.saturating_sub(1), needed, needed + 5] {
        let [(one, bits), (other, due)] =
            [proved, second].map(|viewer| viewed(sheet, origin, room, viewer));
        if one != other || bits != due {
            let place = bits.iter().zip(&due).position(|(bits, due)| bits != due);
            return Err(format!(
                "room {room}, origin {origin:?}, number {place:?}\nproved {one:?}\nsecond {other:?}"
            ));
        }
        untouched(one, &bits, room)?;
        ample = Ok((one, bits[AROUND..AROUND + needed.min(room)].to_vec()));
    }
    ample
}

/// Numbers before and behind the lent ones, which nobody may touch.
const AROUND: usize = 4;

/// What is lent, by its bits: they depend on their place, and no difference has them.
fn lent_bits(room: usize) -> Vec<u32> {
    (0..room + 2 * AROUND).map(|place| 0x3380_0000 + place as u32 * 151).collect()
}

/// The answer and all bits, those around the lent numbers too.
fn viewed(sheet: &[u8], origin: [i32; 3], room: usize, viewer: &Viewer) -> (Viewed, Vec<u32>) {
    let mut numbers: Vec<f32> = lent_bits(room).into_iter().map(f32::from_bits).collect();
    let answer = viewer(sheet, origin, &mut numbers[AROUND..AROUND + room]);
    (answer, numbers.into_iter().map(f32::to_bits).collect())
}

/// Whatever the second implementation does: only the numbers of the legs may be written.
fn untouched(answer: Viewed, bits: &[u32], room: usize) -> Result<(), String> {
    let written = match answer {
        Viewed::Done { legs } => 6 * legs,
        Viewed::Refused { .. } => 0,
    };
    let clean = lent_bits(room);
    let behind = AROUND + written;
    if bits[..AROUND] != clean[..AROUND] || bits[behind..] != clean[behind..] {
        return Err(format!("{answer:?} with a number touched, room {room}"));
    }
    Ok(())
}

/// What a call that makes a summary, or brings one up to date, answers and leaves.
pub type Summed = (Summary, Vec<u64>);

/// The summary of a sheet, in words that are all lent.
pub fn summarize(sheet: &[u8], words: &[u64]) -> Result<Summed, String> {
    let by = |made: fn(&[u8], &mut [u64]) -> Summary| lent(words, |words| made(sheet, words));
    alike(by(proved::summarize), by(second::summarize))
}

/// A summary brought up to date by an edit of so many records.
pub fn update_summary(words: &[u64], records: usize, edit: &Edit) -> Result<Summed, String> {
    let Edit { first, count, new } = edit;
    let by = |made: fn(&mut [u64], usize, usize, usize, &[u8]) -> Summary| {
        lent(words, |words| made(words, records, *first, *count, new))
    };
    alike(by(proved::update_summary), by(second::update_summary))
}

fn lent(words: &[u64], call: impl Fn(&mut [u64]) -> Summary) -> Summed {
    let mut words = words.to_vec();
    (call(&mut words), words)
}

/// A question over a stretch, to a summary of the records.
pub fn entrances(
    words: &[u64],
    records: usize,
    from: usize,
    to: usize,
) -> Result<Entrances, String> {
    let proved = proved::entrances(words, records, from, to);
    alike(proved, second::entrances(words, records, from, to))
}

/// The two have to be the same.
pub fn alike<T: PartialEq + std::fmt::Debug>(proved: T, second: T) -> Result<T, String> {
    if proved == second {
        return Ok(second);
    }
    Err(format!("proved {proved:?}\nsecond {second:?}"))
}

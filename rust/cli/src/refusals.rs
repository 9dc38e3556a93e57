//! Refusals in words: the number, the place, and what to do.

use crate::desk::Stop;
use crate::json::Object;
use crate::text::shown;
use cockledrift::{number, Reader, Refusal};
use std::ffi::OsStr;

/// What the place of each refusal counts (document 01, document 02), and what may
/// help.
const MEANINGS: [(u8, &str, &str); 23] = [
    (1, "byte", COPY),
    (2, "byte", "Survex's own programs, for other versions than 3 to 8"),
    (3, "byte", COPY),
    (4, "byte", SALVAGE),
    (5, "byte", SALVAGE),
    (6, "byte", SALVAGE),
    (7, "byte", SALVAGE),
    (8, "byte", SALVAGE),
    (9, "byte", SALVAGE),
    (10, "byte", SALVAGE),
    (11, "length", "a larger machine"),
    (12, "record", "lines as cockledrift list --records prints them"),
    (13, "record", "a style from 0 to 4 for that leg"),
    (14, "byte", "cockledrift convert --to 8"),
    (15, "record", "cockledrift info, which counts them"),
    (16, "byte", "Survex's own programs: nothing here takes more"),
    (17, "byte", "cockledrift info, which shows the line"),
    (18, "byte", LOOSE),
    (19, "byte", LOOSE),
    (20, "record", "an origin nearer to the legs"),
    (21, "", "cockledrift list, which has the names of surveys"),
    (22, "byte", LOOSE),
    (23, "record", "cockledrift convert --to 8"),
];

const COPY: &str = "another copy of it";
const SALVAGE: &str = "cockledrift salvage";
const LOOSE: &str = "cockledrift check, which is not strict";

/// `refused 5 at byte 292: the words (try: ..)`.
pub fn told(file: &[u8], refusal: &Refusal) -> String {
    format!("{} (try: {})", bare(refusal), hint(file, refusal))
}

/// The same without what may help.
pub fn bare(refusal: &Refusal) -> String {
    let Refusal { number, place } = refusal;
    let unit = unit(refusal);
    let space = if unit.is_empty() { "" } else { " " };
    format!("refused {number} at {unit}{space}{place}: {}", refusal.reason())
}

/// The row of a refusal.
fn meaning(refusal: &Refusal) -> (&'static str, &'static str) {
    let row = MEANINGS.iter().find(|(number, ..)| *number == refusal.number);
    row.map_or(("", "cockledrift --help"), |(_, unit, hint)| (unit, hint))
}

/// What the place counts; nothing where it says nothing.
pub fn unit(refusal: &Refusal) -> &'static str {
    meaning(refusal).0
}

/// What may help. Of a file whose header does not read nothing can be saved.
pub fn hint(file: &[u8], refusal: &Refusal) -> &'static str {
    match refusal.number {
        number::RESERVED if Reader::open(file).1.is_err() => COPY,
        _ => meaning(refusal).1,
    }
}

/// A refusal of a file as the end of a command.
pub fn stop(name: &OsStr, file: &[u8], refusal: &Refusal) -> Stop {
    Stop::no(format!("{}: {}", shown(name), told(file, refusal)))
}

/// A refusal to write what would be a file over the limit, or another one.
pub fn unwritten(name: &OsStr, file: &[u8], refusal: &Refusal) -> Stop {
    match refusal.number {
        number::FILE_TOO_LONG if Reader::open(file).1.is_ok() => {
            let words = format!("{}: what would be written: {}", shown(name), bare(refusal));
            Stop::no(format!("{words} (try: fewer records)"))
        }
        _ => stop(name, file, refusal),
    }
}

/// The fields of a refusal.
pub fn object(object: Object, refusal: &Refusal) -> Object {
    let object = object.raw("refused", refusal.number).raw("place", refusal.place);
    object.text("place_counts", unit(refusal)).text("reason", refusal.reason())
}

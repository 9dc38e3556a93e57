//! `measure`: how far a survey reaches, and how long it is.

use crate::args::Given;
use crate::desk::{Desk, Outcome, Status, Stop};
use crate::json::Object;
use crate::text::{many, metres};
use crate::{file, refusals};
use cockledrift::{reach, Leg, Point, Reach, Record, Sheet};
use std::os::unix::ffi::OsStrExt;

/// Legs, and their length in centimetres: at least and at most.
#[derive(Clone, Copy, Default)]
struct Length {
    legs: usize,
    /// A file has less than two million legs, each of less than 2^34 centimetres.
    least: i64,
    most: i64,
}

/// The lengths of legs by their flags.
#[derive(Default)]
struct Lengths {
    all: Length,
    /// Without legs above ground, duplicates and splays.
    cave: Length,
    /// Above ground, duplicate, splay.
    flagged: [Length; 3],
}

const FLAGGED: [&str; 3] = ["above ground", "duplicate", "splay"];

pub fn run(given: &Given, desk: &mut Desk) -> Outcome {
    let name = &given.names[0];
    let survey = given.value("--survey").unwrap_or_default().as_bytes();
    let bytes = file::load(name)?;
    let sheet = file::sheet(name, &bytes)?;
    let reach =
        reach(sheet.bytes(), survey).map_err(|refusal| refusals::stop(name, &bytes, &refusal))?;
    let lengths = lengths(&sheet, survey);
    match desk.json {
        true => desk.line(&object(given, &reach, &lengths))?,
        false => text(desk, &reach, &lengths)?,
    }
    Ok(Status::Good)
}

fn lengths(sheet: &Sheet, survey: &[u8]) -> Lengths {
    let (mut lengths, mut room) = (Lengths::default(), Vec::new());
    for record in sheet.records() {
        if let Record::Leg(leg) = record {
            if survey.is_empty() || takes_part(&record, survey, &mut room) {
                lengths.add(&leg);
            }
        }
    }
    lengths
}

/// Whether the leg is of the survey: the library says it, of a sheet with this
/// leg alone.
fn takes_part(record: &Record, survey: &[u8], sheet: &mut Vec<u8>) -> bool {
    sheet.clear();
    sheet.extend(b"\x02\0\x04\0\0\0\0");
    record.lay(sheet);
    reach(sheet, survey).is_ok()
}

impl Lengths {
    fn add(&mut self, leg: &Leg) {
        let square = square(leg.from, leg.to);
        let root = square.isqrt();
        let (least, most) = (root as i64, root as i64 + i64::from(root * root != square));
        self.all.add(least, most);
        if leg.flags == 0 {
            self.cave.add(least, most);
        }
        for (bit, length) in self.flagged.iter_mut().enumerate() {
            if leg.flags >> bit & 1 == 1 {
                length.add(least, most);
            }
        }
    }
}

impl Length {
    fn add(&mut self, least: i64, most: i64) {
        *self = Length { legs: self.legs + 1, least: self.least + least, most: self.most + most };
    }

    fn text(&self) -> String {
        let [least, most] = [self.least, self.most].map(|number| metres(number));
        format!("{least} to {most} m ({})", many(self.legs, "leg"))
    }
}

/// The square of a leg's length.
fn square(from: Point, to: Point) -> u128 {
    let square = |a: i32, b: i32| u128::from(a.abs_diff(b)).pow(2);
    square(from.x, to.x) + square(from.y, to.y) + square(from.z, to.z)
}

fn text(desk: &mut Desk, reach: &Reach, lengths: &Lengths) -> Result<(), Stop> {
    for (axis, way) in ["east", "north", "up"].iter().enumerate() {
        let (least, most) = (reach.least[axis], reach.greatest[axis]);
        let across = i64::from(most) - i64::from(least);
        let [least, most, across] =
            [least.into(), most.into(), across].map(|number: i64| metres(number));
        desk.line(&format!("{way}: {least} to {most} m, {across} m across"))?;
    }
    desk.line(&format!(
        "length: {}, without those above ground, duplicates and splays",
        lengths.cave.text()
    ))?;
    desk.line(&format!("all legs: {}", lengths.all.text()))?;
    for (word, length) in FLAGGED.iter().zip(&lengths.flagged) {
        desk.line(&format!("{word}: {}", length.text()))?;
    }
    Ok(())
}

fn object(given: &Given, reach: &Reach, lengths: &Lengths) -> String {
    let survey = given.value("--survey").unwrap_or_default().as_bytes();
    let mut object = Object::new().bytes("file", given.names[0].as_bytes()).bytes("survey", survey);
    object = object.raw("legs", reach.legs).raw("least", format!("{:?}", reach.least));
    object = object.raw("greatest", format!("{:?}", reach.greatest));
    let keys = ["length", "all", "above_ground", "duplicate", "splay"];
    let all = [lengths.cave, lengths.all].into_iter().chain(lengths.flagged);
    for (key, length) in keys.iter().zip(all) {
        object = object.raw(key, format!("[{}, {}]", length.least, length.most));
    }
    object.end()
}

//! `convert`: a file of any version as v8, or as v7.

use super::list::words;
use crate::args::Given;
use crate::desk::{Desk, Outcome, Status, Stop};
use crate::text::{many, shown};
use crate::{file, output, refusals};
use cockledrift::{number, Date, Record, Refusal, Sheet};
use std::ffi::OsStr;

pub fn run(given: &Given, desk: &mut Desk) -> Outcome {
    let name = &given.names[0];
    let write = match given.text("--to")? {
        Some("8") => Sheet::write,
        Some("7") => Sheet::write_v7,
        _ => return Err(given.usage("--to takes 8 or 7")),
    };
    let bytes = file::load(name)?;
    let sheet = file::sheet(name, &bytes)?;
    let out = write(&sheet).map_err(|refusal| refused(name, &bytes, &sheet, &refusal))?;
    output::save(given, desk, &out)?;
    warnings(given, &sheet).iter().for_each(|words| desk.warn(words));
    output::told(given, desk, sheet.records().count(), out.len())?;
    Ok(Status::Good)
}

/// A refusal to write, with what stands at that record.
fn refused(name: &OsStr, bytes: &[u8], sheet: &Sheet, refusal: &Refusal) -> Stop {
    let what = match sheet.records().nth(refusal.place) {
        _ if refusal.number != number::NOT_IN_V7 => {
            return refusals::unwritten(name, bytes, refusal);
        }
        _ if sheet.header().extended => ": an extended elevation".into(),
        Some(record) => format!(": {}", words::of(&record)),
        None => String::new(),
    };
    let (told, try_this) = (refusals::bare(refusal), refusals::hint(bytes, refusal));
    Stop::no(format!("{}: {told}{what} (try: {try_this})", shown(name)))
}

/// How many records have a date range that goes out with a span of days, which
/// Survex's programs read a day longer (docs/SURVEX.md).
fn spans(sheet: &Sheet) -> usize {
    let date = |record: &Record| match record {
        Record::Leg(leg) => leg.date,
        Record::Section(section) => section.date,
        _ => Date::None,
    };
    let short =
        |record: &Record| matches!(date(record), Date::Range(day, last) if last - day <= 255);
    sheet.records().filter(short).count()
}

pub fn warnings(given: &Given, sheet: &Sheet) -> Vec<String> {
    let name = shown(given.value("--output").unwrap_or_default());
    let name = if name == "standard input" { "standard output".into() } else { name };
    let mut words = Vec::new();
    if let number @ 1.. = spans(sheet) {
        let records = many(number, "record");
        words.push(format!(
            "{name}: warning: Survex's programs will read the date range of {records} a day longer"
        ));
    }
    if given.value("--to").is_none_or(|to| to != "7") {
        return words;
    }
    let said = |record: &Record| matches!(record, Record::Leg(leg) if leg.style == 0);
    if let legs @ 1.. = sheet.records().filter(said).count() {
        words.push(format!(
            "{name}: warning: v7 does not say the normal style of {}",
            many(legs, "leg")
        ));
    }
    if sheet.header().title.ends_with(b" (extended)") {
        words.push(format!(
            "{name}: warning: Survex's programs will take it for an extended elevation, by its title"
        ));
    }
    words
}

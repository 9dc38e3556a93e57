//! `list`: the records of a file.

use crate::args::Given;
use crate::desk::{Desk, Outcome, Status, Stop};
use crate::{file, refusals};
use cockledrift::{text, Record};
use std::ffi::OsStr;

mod csv;
mod object;
pub mod words;

/// What prints a record.
type Form = fn(usize, &Record) -> String;

pub fn run(given: &Given, desk: &mut Desk) -> Outcome {
    let name = &given.names[0];
    let chosen: Vec<_> =
        ["--raw", "--records", "--csv"].into_iter().filter(|long| given.has(long)).collect();
    if chosen.len() + usize::from(desk.json) > 1 {
        return Err(given.usage("one of --raw, --records, --csv and --json at a time"));
    }
    let bytes = file::load(name)?;
    match chosen.first() {
        Some(&"--raw") => raw(name, &bytes, desk),
        Some(&"--records") => each(name, &bytes, desk, |_, record| record.line()),
        Some(_) => {
            good(name, &bytes)?;
            desk.line(csv::NAMES)?;
            each(name, &bytes, desk, csv::line)
        }
        None if desk.json => each(name, &bytes, desk, object::line),
        None => each(name, &bytes, desk, words::line),
    }
}

/// Nothing is printed of a file that is not good.
fn good(name: &OsStr, bytes: &[u8]) -> Result<(), Stop> {
    file::judge(bytes).map(drop).map_err(|refusal| refusals::stop(name, bytes, &refusal))
}

/// A line a record, of a file that is good to its end.
fn each(name: &OsStr, bytes: &[u8], desk: &mut Desk, form: Form) -> Outcome {
    good(name, bytes)?;
    file::records(name, bytes, |number, record| desk.line(&form(number, &record)))?;
    Ok(Status::Good)
}

/// The text of the proved lister, refusals too.
fn raw(name: &OsStr, bytes: &[u8], desk: &mut Desk) -> Outcome {
    let opened = match file::judge(bytes) {
        Ok(opened) => opened,
        Err(refusal) => {
            desk.line(&format!("refused {} at {}", refusal.number, refusal.place))?;
            return Err(refusals::stop(name, bytes, &refusal));
        }
    };
    let sheet =
        file::header(bytes, &opened).map_err(|refusal| refusals::stop(name, bytes, &refusal))?;
    let header = sheet.header();
    let (title, time) = (text(header.title), text(header.time));
    let (version, extended) = (opened.version, header.extended as u8);
    desk.line(&format!("version {version} title {title} time {time} extended {extended}"))?;
    let count = file::records(name, bytes, |_, record| desk.line(&record.line()))?;
    desk.line(&format!("end {count}"))?;
    Ok(Status::Good)
}

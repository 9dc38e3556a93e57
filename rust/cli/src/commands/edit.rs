//! `edit`: records of a file replaced.

use crate::args::Given;
use crate::desk::{Desk, Outcome, Status, Stop};
use crate::text::shown;
use crate::{file, output, refusals};
use cockledrift::{edit_vec, number, Record};
use std::ffi::OsStr;

pub fn run(given: &Given, desk: &mut Desk) -> Outcome {
    let name = &given.names[0];
    let at = given.number("--at")?.ok_or_else(|| given.usage("--at N is missing"))?;
    let count = given.number("--count")?.unwrap_or(0);
    let with = given.value("--with");
    let new = with.map(records).transpose()?.unwrap_or_default();
    let bytes = file::load(name)?;
    let out =
        edit_vec(&bytes, at, count, &new).map_err(|refusal| match (refusal.number, with) {
            (number::BAD_SHEET, Some(with)) => refusals::stop(with, &bytes, &refusal),
            _ => refusals::unwritten(name, &bytes, &refusal),
        })?;
    output::save(given, desk, &out)?;
    let records = file::count(&out).map_err(|refusal| refusals::stop(name, &out, &refusal))?;
    output::told(given, desk, records, out.len())?;
    Ok(Status::Good)
}

/// The records of a text, a line each, laid out for the library. Empty lines do
/// not count.
fn records(name: &OsStr) -> Result<Vec<u8>, Stop> {
    let (mut new, mut label) = (Vec::new(), Vec::new());
    file::lines(name, |number, line| {
        let line = std::str::from_utf8(line).ok();
        match line.and_then(|line| Record::of_line(line, &mut label)) {
            _ if line == Some("") => Ok(()),
            Some(record) => {
                record.lay(&mut new);
                Ok(())
            }
            None => {
                let words = format!("{}: line {number} is no record", shown(name));
                Err(Stop::trouble(format!("{words} (try: cockledrift list --records)")))
            }
        }
    })?;
    Ok(new)
}

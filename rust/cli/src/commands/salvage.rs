//! `salvage`: what can be read of a damaged file.

use super::convert::warnings;
use crate::args::Given;
use crate::desk::{Desk, Outcome, Status, Stop};
use crate::json::Object;
use crate::text::{many, shown};
use crate::{file, output, refusals};
use cockledrift::{Saved, Sheet};
use std::os::unix::ffi::OsStrExt;

pub fn run(given: &Given, desk: &mut Desk) -> Outcome {
    let name = &given.names[0];
    let bytes = file::load(name)?;
    let (sheet, saved) = file::saved(name, &bytes)?;
    let out = sheet.write().map_err(|refusal| refusals::unwritten(name, &bytes, &refusal))?;
    output::save(given, desk, &out)?;
    warnings(given, &sheet).iter().for_each(|words| desk.warn(words));
    let to_out = given.value("--output").is_some_and(|to| to == "-");
    match (to_out, desk.json) {
        (true, _) => text(given, &saved, &sheet).iter().for_each(|line| desk.warn(line)),
        (false, true) => object(given, desk, &saved)?,
        (false, false) => {
            text(given, &saved, &sheet).iter().try_for_each(|line| desk.line(line))?
        }
    }
    Ok(Status::Good)
}

/// The report in words.
fn text(given: &Given, saved: &Saved, sheet: &Sheet) -> Vec<String> {
    let name = shown(&given.names[0]);
    let records = many(saved.done.records, "record");
    let Some(refusal) = saved.refusal else {
        return vec![format!("{name}: nothing is broken: all {records} are saved")];
    };
    let last = match sheet.records().last() {
        Some(record) => format!("the last saved is {}", super::list::words::of(&record)),
        None => "there is none before it".into(),
    };
    vec![
        format!(
            "{name}: {}: {} from there on left out",
            refusals::bare(&refusal),
            many(saved.left, "byte")
        ),
        format!("{name}: {records} saved: {last}"),
    ]
}

fn object(given: &Given, desk: &mut Desk, saved: &Saved) -> Result<(), Stop> {
    let object = Object::new().bytes("file", given.names[0].as_bytes());
    let object = object.raw("version", saved.done.version).raw("records", saved.done.records);
    let object = object.raw("whole", saved.refusal.is_none()).raw("left", saved.left);
    let object = match &saved.refusal {
        Some(refusal) => refusals::object(object, refusal),
        None => object,
    };
    desk.line(&object.end())
}

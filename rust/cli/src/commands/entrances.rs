//! `entrances`: how many a stretch of records holds, each of them, and the next one.

use super::list::words;
use crate::args::Given;
use crate::desk::{Desk, Outcome, Status, Stop};
use crate::json::Object;
use crate::text::many;
use crate::{file, refusals};
use cockledrift::{Entrances, Record, Refusal, Station, Summary};
use std::ops::Range;
use std::os::unix::ffi::OsStrExt;

pub fn run(given: &Given, desk: &mut Desk) -> Outcome {
    let name = &given.names[0];
    let (from, to) = (given.number("--from")?, given.number("--to")?);
    let bytes = file::load(name)?;
    let sheet = file::sheet(name, &bytes)?;
    let stop = |refusal: Refusal| refusals::stop(name, &bytes, &refusal);
    let summary = Summary::of(&sheet).map_err(stop)?;
    let range = from.unwrap_or(0)..to.unwrap_or(summary.records());
    let asked = summary.entrances(range.clone()).map_err(stop)?;
    let each = each(&summary, range.clone()).map_err(stop)?;
    let records: Vec<_> = sheet.records().collect();
    match desk.json {
        true => objects(given, desk, &asked, &range, &each, &records)?,
        false => text(desk, &asked, &range, &each, &records)?,
    }
    Ok(Status::Good)
}

/// The entrances of a stretch, each found from behind the last.
fn each(summary: &Summary, range: Range<usize>) -> Result<Vec<usize>, Refusal> {
    let (mut found, mut at) = (Vec::new(), range.start);
    while let Some(next) = summary.entrances(at..range.end)?.next.filter(|next| *next < range.end) {
        found.push(next);
        at = next + 1;
    }
    Ok(found)
}

fn text(
    desk: &mut Desk,
    asked: &Entrances,
    range: &Range<usize>,
    each: &[usize],
    records: &[Record],
) -> Result<(), Stop> {
    let (count, all) = (many(asked.count as usize, "entrance"), many(records.len(), "record"));
    desk.line(&format!("{count} from record {} up to {}, of {all}", range.start, range.end))?;
    for &number in each {
        desk.line(&words::line(number, &records[number]))?;
    }
    let next = asked.next.map_or("none".into(), |number| words::line(number, &records[number]));
    desk.line(&format!("the next at or after {}: {next}", range.start))
}

fn objects(
    given: &Given,
    desk: &mut Desk,
    asked: &Entrances,
    range: &Range<usize>,
    each: &[usize],
    records: &[Record],
) -> Result<(), Stop> {
    let object = Object::new().bytes("file", given.names[0].as_bytes());
    let object = object.raw("records", records.len());
    let object = object.raw("from", range.start).raw("to", range.end);
    desk.line(&object.raw("count", asked.count).maybe("next", asked.next).end())?;
    let past = asked.next.filter(|next| *next >= range.end);
    for number in each.iter().copied().chain(past) {
        if let Record::Station(Station { at, label, .. }) = records[number] {
            let object = Object::new().raw("record", number).bytes("label", label);
            desk.line(&object.raw("at", format!("{:?}", [at.x, at.y, at.z])).end())?;
        }
    }
    Ok(())
}

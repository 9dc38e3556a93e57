//! `info`: what a file is.

use crate::args::Given;
use crate::desk::{Desk, Outcome, Status, Stop};
use crate::json::{quoted, Object};
use crate::text::{day, escaped, many, shown};
use crate::{file, refusals, time};
use cockledrift::{edit, number, Date, Record, Sheet};
use std::ffi::OsStr;
use std::os::unix::ffi::OsStrExt;

/// What is said of a file.
struct Facts {
    version: u8,
    bytes: usize,
    header: Sheet,
    second: Option<u32>,
    /// Legs, stations, cross-sections, errors of traverses.
    kinds: [usize; 4],
    days: Option<(u16, u16)>,
    house: bool,
}

pub fn run(given: &Given, desk: &mut Desk) -> Outcome {
    let (mut status, mut printed) = (Status::Good, false);
    for name in &given.names {
        match one(name) {
            Ok(facts) if desk.json => desk.line(&object(name, &facts))?,
            Ok(facts) => {
                if std::mem::replace(&mut printed, true) {
                    desk.line("")?;
                }
                text(name, &facts).iter().try_for_each(|line| desk.line(line))?;
            }
            Err(Stop::Said(bad, words)) => {
                desk.error(&words);
                status = status.max(bad);
            }
            Err(stop) => return Err(stop),
        }
    }
    Ok(status)
}

fn one(name: &OsStr) -> Result<Facts, Stop> {
    let bytes = file::load(name)?;
    let refused = |refusal| refusals::stop(name, &bytes, &refusal);
    let opened = file::judge(&bytes).map_err(refused)?;
    let mut facts = Facts {
        version: opened.version,
        bytes: bytes.len(),
        header: file::header(&bytes, &opened).map_err(refused)?,
        second: time::second(&bytes).ok(),
        kinds: [0; 4],
        days: None,
        house: house_written(&bytes),
    };
    file::records(name, &bytes, |_, record| {
        facts.count(&record);
        Ok(())
    })?;
    Ok(facts)
}

/// Whether the library would edit the file: all but 14 says that it would.
fn house_written(file: &[u8]) -> bool {
    !matches!(edit(file, 0, 0, b"", &mut []), Err(refusal) if refusal.number == number::NOT_HOUSE_WRITTEN)
}

impl Facts {
    fn count(&mut self, record: &Record) {
        let (kind, date) = match record {
            Record::Leg(leg) => (0, leg.date),
            Record::Station(_) => (1, Date::None),
            Record::Section(section) => (2, section.date),
            Record::Traverse(_) => (3, Date::None),
        };
        self.kinds[kind] += 1;
        let (first, last) = match date {
            Date::None => return,
            Date::Day(day) => (day, day),
            Date::Range(day, last) => (day, last),
        };
        let (least, most) = self.days.unwrap_or((first, last));
        self.days = Some((least.min(first), most.max(last)));
    }

    /// The title, and the coordinate system behind a zero byte.
    fn title(&self) -> (&[u8], Option<&[u8]>) {
        let mut parts = self.header.header().title.splitn(2, |&byte| byte == 0);
        (parts.next().unwrap_or_default(), parts.next().filter(|system| !system.is_empty()))
    }
}

fn text(name: &OsStr, facts: &Facts) -> Vec<String> {
    let (title, system) = facts.title();
    let header = facts.header.header();
    let [legs, stations, sections, errors] = facts.kinds;
    let second = facts.second.map_or("cannot be read".into(), time::utc);
    let mut lines = vec![
        format!("file: {}", shown(name)),
        format!("version: {}, {}", facts.version, many(facts.bytes, "byte")),
        format!("title: {}", escaped(title)),
    ];
    lines.extend(system.map(|system| format!("coordinate system: {}", escaped(system))));
    lines.push(format!("time: {second} (the line: {})", escaped(header.time)));
    lines.push(format!("extended elevation: {}", yes(header.extended)));
    let kinds = [many(legs, "leg"), many(stations, "station"), many(sections, "cross-section")];
    let errors = many(errors, "traverse error");
    lines.push(format!(
        "records: {} ({}, {errors})",
        facts.kinds.iter().sum::<usize>(),
        kinds.join(", ")
    ));
    let days = facts
        .days
        .map_or("none".into(), |(least, most)| format!("{} to {}", day(least), day(most)));
    lines.push(format!("dates: {days}"));
    lines.push(format!("house-written: {}", yes(facts.house)));
    lines
}

fn yes(truth: bool) -> &'static str {
    if truth {
        "yes"
    } else {
        "no"
    }
}

fn object(name: &OsStr, facts: &Facts) -> String {
    let (title, system) = facts.title();
    let header = facts.header.header();
    let [legs, stations, sections, errors] = facts.kinds;
    let mut object = Object::new().bytes("file", name.as_bytes()).raw("version", facts.version);
    object = object.raw("bytes", facts.bytes).bytes("title", title);
    if let Some(system) = system {
        object = object.bytes("coordinate_system", system);
    }
    let (first, last) = facts.days.unzip();
    object
        .maybe("second", facts.second)
        .maybe("time", facts.second.map(|second| quoted(&time::utc(second))))
        .bytes("time_line", header.time)
        .raw("extended", header.extended)
        .raw("legs", legs)
        .raw("stations", stations)
        .raw("sections", sections)
        .raw("errors", errors)
        .maybe("first_date", first.map(|first| quoted(&day(first))))
        .maybe("last_date", last.map(|last| quoted(&day(last))))
        .raw("house_written", facts.house)
        .end()
}

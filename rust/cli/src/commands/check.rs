//! `check`: which files are good, and where others are broken.

use crate::args::Given;
use crate::desk::{Color, Desk, Outcome, Status, Stop};
use crate::json::Object;
use crate::text::{many, shown};
use crate::{file, refusals, strict, walk};
use cockledrift::{Opened, Refusal};
use std::ffi::{OsStr, OsString};
use std::os::unix::ffi::OsStrExt;
use std::path::Path;

pub fn run(given: &Given, desk: &mut Desk) -> Outcome {
    let (names, mut status) = found(given, desk);
    let (mut good, mut refused, mut unread) = (0, 0, 0);
    for (number, name) in names.iter().enumerate() {
        desk.progress(number, names.len());
        match one(name, given.has("--strict"), desk) {
            Ok(true) => good += 1,
            Ok(false) => refused += 1,
            Err(Stop::Said(_, words)) => {
                desk.error(&words);
                unread += 1;
            }
            Err(stop) => return Err(stop),
        }
    }
    status = status.max(if refused > 0 { Status::No } else { Status::Good });
    status = status.max(if unread > 0 { Status::Trouble } else { Status::Good });
    if !desk.json {
        let unread = if unread > 0 { format!(", {unread} not read") } else { String::new() };
        desk.line(&format!(
            "{}: {good} good, {refused} refused{unread}",
            many(names.len(), "file")
        ))?;
    }
    Ok(status)
}

/// The files that are named, and those of folders.
fn found(given: &Given, desk: &mut Desk) -> (Vec<OsString>, Status) {
    let (mut names, mut status) = (Vec::new(), Status::Good);
    for name in &given.names {
        if name != "-" && Path::new(name).is_dir() {
            let (files, bad) = walk::files(Path::new(name), desk);
            names.extend(files.into_iter().map(OsString::from));
            status = status.max(bad);
        } else {
            names.push(name.clone());
        }
    }
    (names, status)
}

fn one(name: &OsStr, strictly: bool, desk: &mut Desk) -> Result<bool, Stop> {
    let bytes = file::load(name)?;
    let judged = match strictly {
        true => strict::judge(name, &bytes)?,
        false => file::judge(&bytes),
    };
    let line = match desk.json {
        true => object(name, &bytes, &judged),
        false => text(name, &bytes, &judged, desk),
    };
    desk.line(&line)?;
    Ok(judged.is_ok())
}

fn text(name: &OsStr, bytes: &[u8], judged: &Result<Opened, Refusal>, desk: &Desk) -> String {
    let name = shown(name);
    match judged {
        Ok(opened) => format!("{name}: {}, v{}", desk.paint("good", Color::Green), opened.version),
        Err(refusal) => {
            let told = refusals::told(bytes, refusal) + &strict::told(bytes, refusal);
            format!("{name}: {}", told.replacen("refused", &desk.paint("refused", Color::Red), 1))
        }
    }
}

fn object(name: &OsStr, bytes: &[u8], judged: &Result<Opened, Refusal>) -> String {
    let object = Object::new().bytes("file", name.as_bytes()).raw("good", judged.is_ok());
    match judged {
        Ok(opened) => object.raw("version", opened.version).end(),
        Err(refusal) => {
            let try_this = refusals::hint(bytes, refusal);
            let told = refusals::object(object, refusal);
            strict::object(told, bytes, refusal).text("try", try_this).end()
        }
    }
}

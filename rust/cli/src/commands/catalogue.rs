//! `catalogue`: what an archive holds, a line a file.

use crate::args::Given;
use crate::desk::{Desk, Outcome, Status, Stop};
use crate::entry::Entry;
use crate::json::{quoted, Object};
use crate::text::{escaped, reason, shown};
use crate::{output, time, walk};
use std::collections::{BTreeMap, BTreeSet};
use std::os::unix::ffi::OsStrExt;
use std::path::{Path, PathBuf};

/// How a catalogue begins; the folder follows.
pub const MARK: &str = "# cockledrift catalogue 1\t";
/// How it ends; the number of files follows. One without it was cut short.
pub const END: &str = "# end ";
const NAMES: &str = "# sha256\tbytes\ttime\ttime line\tversion\trecords\ttitle\tpath\tmarks";

/// A file with its path below the folder.
type Row = (PathBuf, Entry);

pub fn run(given: &Given, desk: &mut Desk) -> Outcome {
    let folder = Path::new(&given.names[0]);
    let rows = rows(folder, desk)?;
    let text: Vec<u8> = match () {
        _ if given.has("--sums") => rows.iter().flat_map(|row| sum(folder, row)).collect(),
        _ if desk.json => objects(&rows).into_bytes(),
        _ => table(folder, &rows).into_bytes(),
    };
    if given.has("--output") {
        let files: Vec<_> = rows.iter().map(|(path, _)| folder.join(path)).collect();
        output::save_beside(given, desk, &text, &files)?;
    } else if !desk.quiet {
        output::fit(desk, &text)?;
        desk.put(&text)?;
    }
    Ok(Status::Good)
}

/// All files of the folder, or none where one cannot be read.
fn rows(folder: &Path, desk: &mut Desk) -> Result<Vec<Row>, Stop> {
    let (files, mut status) = walk::files(folder, desk);
    let mut rows = Vec::new();
    for (number, path) in files.iter().enumerate() {
        desk.progress(number, files.len());
        match Entry::of(path) {
            Ok(entry) => rows.push((path.strip_prefix(folder).unwrap_or(path).into(), entry)),
            Err(error) => {
                desk.error(&format!("{}: {}", shown(path), reason(&error)));
                status = Status::Trouble;
            }
        }
    }
    match status {
        Status::Good => Ok(rows),
        _ => Err(Stop::trouble(format!("{}: no catalogue is made", shown(folder)))),
    }
}

/// The lines of a catalogue.
fn table(folder: &Path, rows: &[Row]) -> String {
    let mut text = format!("{MARK}{}\n{NAMES}\n", escaped(folder.as_os_str().as_bytes()));
    for ((path, entry), marks) in rows.iter().zip(marks(rows)) {
        let bytes =
            |bytes: &Option<Vec<u8>>| bytes.as_ref().map_or("-".into(), |bytes| escaped(bytes));
        let fields = [
            entry.digest.clone(),
            entry.bytes.to_string(),
            entry.second.map_or("-".into(), instant),
            bytes(&entry.line),
            entry.version.map_or("-".into(), |version| version.to_string()),
            entry.records.as_ref().map_or("-".into(), |records| records.to_string()),
            bytes(&entry.title),
            escaped(path.as_os_str().as_bytes()),
            marks.join(","),
        ];
        text += &(fields.join("\t") + "\n");
    }
    text + END + &format!("{}\n", rows.len())
}

/// `2002-03-17T14:01:07Z`.
fn instant(second: u32) -> String {
    time::utc(second).replace(" UTC", "Z").replace(' ', "T")
}

/// The title without the coordinate system behind a zero byte.
fn plain(title: &[u8]) -> &[u8] {
    title.split(|&byte| byte == 0).next().unwrap_or_default()
}

/// What is worth looking at: `refused N`, `same minute` (as another file, and not
/// the same second), `older` (than another file of its title) and `latest` (of its
/// title, where there is an older one).
fn marks(rows: &[Row]) -> Vec<Vec<String>> {
    let mut minutes: BTreeMap<u32, BTreeSet<u32>> = BTreeMap::new();
    let mut titles: BTreeMap<&[u8], BTreeSet<u32>> = BTreeMap::new();
    for (_, entry) in rows {
        let (Some(second), Some(title)) = (entry.second, &entry.title) else { continue };
        minutes.entry(second / 60).or_default().insert(second);
        titles.entry(plain(title)).or_default().insert(second);
    }
    let of = |entry: &Entry| {
        let mut marks = Vec::new();
        marks.extend(
            entry.records.as_ref().err().map(|refusal| format!("refused {}", refusal.number)),
        );
        if let (Some(second), Some(title)) = (entry.second, &entry.title) {
            marks.extend((minutes[&(second / 60)].len() > 1).then(|| "same minute".into()));
            let times = &titles[plain(title)];
            let word = if times.last() == Some(&second) { "latest" } else { "older" };
            marks.extend((times.len() > 1).then(|| word.into()));
        }
        marks
    };
    rows.iter().map(|(_, entry)| of(entry)).collect()
}

/// A line as `sha256sum -c` reads it, with the name's own bytes.
fn sum(folder: &Path, (path, entry): &Row) -> Vec<u8> {
    let path = folder.join(path);
    let name = path.as_os_str().as_bytes();
    let mut line = Vec::new();
    if name.iter().any(|byte| b"\\\n\r".contains(byte)) {
        line.push(b'\\');
    }
    line.extend(entry.digest.bytes().chain(*b"  "));
    for &byte in name {
        match byte {
            b'\\' => line.extend(b"\\\\"),
            b'\n' => line.extend(b"\\n"),
            b'\r' => line.extend(b"\\r"),
            _ => line.push(byte),
        }
    }
    line.push(b'\n');
    line
}

fn objects(rows: &[Row]) -> String {
    let mut text = String::new();
    for ((path, entry), marks) in rows.iter().zip(marks(rows)) {
        let mut object = Object::new().text("sha256", &entry.digest).raw("bytes", entry.bytes);
        object = object.maybe("second", entry.second);
        object = object.maybe("time", entry.second.map(|second| quoted(&instant(second))));
        if let (Some(line), Some(title)) = (&entry.line, &entry.title) {
            object = object.bytes("time_line", line).bytes("title", title);
        }
        object =
            object.maybe("version", entry.version).maybe("records", entry.records.as_ref().ok());
        let marks: Vec<_> = marks.iter().map(|mark| quoted(mark)).collect();
        object = object.bytes("path", path.as_os_str().as_bytes());
        text += &(object.raw("marks", format!("[{}]", marks.join(", "))).end() + "\n");
    }
    text
}

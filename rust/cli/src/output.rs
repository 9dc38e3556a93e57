//! Files that come out whole or not at all.

use crate::args::Given;
use crate::desk::{Desk, Stop};
use crate::disk::{Disk, Fault, Like};
use crate::json::Object;
use crate::text::{drives, many, reason, shown};
use std::ffi::{OsStr, OsString};
use std::fs;
use std::io::{self, ErrorKind};
use std::os::unix::ffi::OsStrExt;
use std::os::unix::fs::MetadataExt;
use std::path::{Path, PathBuf};

/// Writes a result to the file of `-o`, or to standard output where that is `-`.
pub fn save(given: &Given, desk: &mut Desk, bytes: &[u8]) -> Result<(), Stop> {
    save_beside(given, desk, bytes, &[])
}

/// As `save`, never over one of these files either.
pub fn save_beside(
    given: &Given,
    desk: &mut Desk,
    bytes: &[u8],
    inputs: &[PathBuf],
) -> Result<(), Stop> {
    let name = given.value("--output").ok_or_else(|| given.usage("-o FILE is missing"))?;
    if name == "-" {
        fit(desk, bytes)?;
        return desk.bytes(bytes);
    }
    let force = given.has("--force");
    allowed(given, name, force, inputs)?;
    put(&Disk::new(Fault::Nothing), Path::new(name), bytes, force)
        .map_err(|error| wrong(name, &error))
}

/// Says how much went to the file of `-o`.
pub fn told(given: &Given, desk: &mut Desk, records: usize, bytes: usize) -> Result<(), Stop> {
    let to = given.value("--output").unwrap_or_default();
    if to == "-" {
        return Ok(());
    }
    if desk.json {
        let object = Object::new().bytes("file", to.as_bytes()).raw("bytes", bytes);
        return desk.line(&object.raw("records", records).end());
    }
    desk.line(&format!("{}: {} in {}", shown(to), many(records, "record"), many(bytes, "byte")))
}

/// A terminal gets plain text alone: other bytes may drive it.
pub fn fit(desk: &Desk, bytes: &[u8]) -> Result<(), Stop> {
    let plain = |letter: char| matches!(letter, '\n' | '\t') || !drives(letter);
    match !desk.terminal || std::str::from_utf8(bytes).is_ok_and(|text| text.chars().all(plain)) {
        true => Ok(()),
        false => Err(Stop::trouble(
            "standard output: it is a terminal, and this is no plain text (try: -o FILE)",
        )),
    }
}

fn wrong(name: &OsStr, error: &io::Error) -> Stop {
    match error.kind() {
        ErrorKind::AlreadyExists => {
            Stop::trouble(format!("{}: it is there already (try: --force)", shown(name)))
        }
        _ => Stop::trouble(format!("{}: {}", shown(name), reason(error))),
    }
}

/// Never over an input, never in the place of a folder or a device, and over
/// another file only by `--force`.
pub fn allowed(given: &Given, name: &OsStr, force: bool, more: &[PathBuf]) -> Result<(), Stop> {
    let Ok(there) = fs::metadata(name) else { return Ok(()) };
    let inputs = given.names.iter().map(|name| &name[..]).chain(given.value("--with"));
    let named = inputs.map(|input| if input == "-" { OsStr::new("/dev/stdin") } else { input });
    let all = named.chain(more.iter().map(|path| path.as_os_str()));
    for input in all.filter_map(|input| fs::metadata(input).ok()) {
        if (input.dev(), input.ino()) == (there.dev(), there.ino()) {
            return Err(Stop::trouble(format!("{}: it is the input, and is kept", shown(name))));
        }
    }
    match (there.is_file(), force) {
        (false, _) => {
            let words = "it is no plain file (-o - is standard output)";
            Err(Stop::trouble(format!("{}: {words}", shown(name))))
        }
        (true, false) => Err(wrong(name, &ErrorKind::AlreadyExists.into())),
        (true, true) => Ok(()),
    }
}

/// The folder that a file is in.
pub fn folder(path: &Path) -> &Path {
    match path.parent() {
        Some(folder) if folder != Path::new("") => folder,
        _ => Path::new("."),
    }
}

/// A name beside the file that nothing has.
fn beside(path: &Path) -> PathBuf {
    let mut name = OsString::from(".cockledrift-");
    name.push(std::process::id().to_string());
    for number in 0.. {
        let mut name = name.clone();
        name.push(format!("-{number}.part"));
        let path = folder(path).join(name);
        if fs::symlink_metadata(&path).is_err() {
            return path;
        }
    }
    unreachable!("some number is free")
}

/// A file beside `to` with these bytes, synced, read back and compared.
pub fn part(disk: &Disk, to: &Path, bytes: &[u8], like: Like) -> io::Result<PathBuf> {
    let part = beside(to);
    let whole =
        disk.write_new(&part, bytes, like).and_then(|()| match disk.read_back(&part)? == bytes {
            true => Ok(()),
            false => Err(io::Error::other("what was written does not read back")),
        });
    match whole {
        Ok(()) => Ok(part),
        Err(error) => {
            let _ = disk.remove(&part);
            Err(error)
        }
    }
}

/// Puts a file there whole: in the place of another only by `over`.
pub fn put(disk: &Disk, to: &Path, bytes: &[u8], over: bool) -> io::Result<()> {
    // A link is followed: the file behind it is the one that changes.
    let to = &fs::canonicalize(to).unwrap_or_else(|_| to.into());
    let there = fs::metadata(to).ok().filter(|_| over);
    let part = part(disk, to, bytes, there.as_ref().map_or(Like::Mode(0o666), Like::File))?;
    let settled = if over { disk.rename(&part, to) } else { claim(disk, &part, to) };
    if let Err(error) = settled {
        let _ = disk.remove(&part);
        return Err(error);
    }
    last(disk, to)
}

/// Makes the new name last. The file stands there already.
pub fn last(disk: &Disk, to: &Path) -> io::Result<()> {
    disk.sync_folder(folder(to)).map_err(|error| {
        let words = "it is in its place, but the folder cannot be synced";
        io::Error::new(error.kind(), format!("{words}: {}", reason(&error)))
    })
}

/// Gives the file its name, where nothing has that name.
pub fn claim(disk: &Disk, part: &Path, to: &Path) -> io::Result<()> {
    match disk.link(part, to) {
        Ok(()) => {
            // The file stands under its name: a second name does no harm.
            let _ = disk.remove(part);
            Ok(())
        }
        Err(error) if error.kind() == ErrorKind::AlreadyExists => Err(error),
        // A file system without second names.
        Err(_) if fs::symlink_metadata(to).is_ok() => Err(ErrorKind::AlreadyExists.into()),
        Err(_) => disk.rename(part, to),
    }
}

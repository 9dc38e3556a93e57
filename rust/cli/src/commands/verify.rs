//! `verify`: whether an archive is still what its catalogue says.

use super::catalogue::{END, MARK};
use crate::args::Given;
use crate::desk::{Color, Desk, Outcome, Status, Stop};
use crate::json::Object;
use crate::text::{escaped, many, reason, shown, unescaped};
use crate::{entry, file, refusals, walk};
use std::collections::{BTreeMap, BTreeSet, VecDeque};
use std::ffi::{OsStr, OsString};
use std::fs;
use std::os::unix::ffi::{OsStrExt, OsStringExt};
use std::path::{Path, PathBuf};

/// The digest of each path.
type Digests = BTreeMap<PathBuf, String>;

/// What became of the files.
#[derive(Default)]
struct Found {
    same: usize,
    missing: Vec<PathBuf>,
    /// With what the library says of it now.
    changed: Vec<(PathBuf, String)>,
    new: Vec<PathBuf>,
    moved: Vec<(PathBuf, PathBuf)>,
    /// Files of the catalogue that cannot be looked at, and others.
    unread: usize,
}

pub fn run(given: &Given, desk: &mut Desk) -> Outcome {
    let name = &given.names[0];
    let (folder, due) = catalogue(name)?;
    let folder = given.value("--folder").map(PathBuf::from).unwrap_or(folder);
    if let Err(error) = fs::read_dir(&folder) {
        let words = format!("{}: {}", shown(&folder), reason(&error));
        return Err(Stop::trouble(format!("{words} (try: --folder, where the archive is now)")));
    }
    let found = compared(&folder, &due, desk);
    match desk.json {
        true => objects(&found).iter().try_for_each(|line| desk.line(line))?,
        false => text(&found, due.len(), desk)?,
    }
    if !due.is_empty() && found.missing.len() == due.len() {
        let words = "no file of the catalogue is there (try: --folder, where the archive is now)";
        desk.warn(&format!("{}: {words}", shown(&folder)));
    }
    let bad = found.missing.len() + found.changed.len() + found.new.len() + found.moved.len();
    Ok(match (found.unread, bad) {
        (0, 0) => Status::Good,
        (0, _) => Status::No,
        _ => Status::Trouble,
    })
}

/// The folder and the files of a catalogue.
fn catalogue(name: &OsStr) -> Result<(PathBuf, Digests), Stop> {
    let (mut folder, mut due, mut end) = (None, Digests::new(), None);
    file::lines(name, |number, line| {
        let words = || format!("{}: line {number} is none of a catalogue", shown(name));
        let wrong = || Stop::trouble(format!("{} (try: cockledrift catalogue)", words()));
        let line = std::str::from_utf8(line).map_err(|_| wrong())?.trim_end_matches('\r');
        if number == 1 {
            folder = Some(line.strip_prefix(MARK).and_then(path).ok_or_else(wrong)?);
        } else if let Some(count) = line.strip_prefix(END) {
            end = Some(count.parse::<usize>().map_err(|_| wrong())?);
        } else if !line.starts_with('#') && !line.is_empty() {
            let (path, digest) = row(line).ok_or_else(wrong)?;
            if end.is_some() || due.insert(path, digest).is_some() {
                return Err(wrong());
            }
        }
        Ok(())
    })?;
    match (folder, end) {
        (Some(folder), Some(end)) if end == due.len() => Ok((folder, due)),
        _ => {
            let words = format!("{}: a part of the catalogue is missing", shown(name));
            Err(Stop::trouble(format!("{words}: it has {}", many(due.len(), "file"))))
        }
    }
}

fn path(text: &str) -> Option<PathBuf> {
    unescaped(text).map(|bytes| OsString::from_vec(bytes).into())
}

fn row(line: &str) -> Option<(PathBuf, String)> {
    let fields: Vec<_> = line.split('\t').collect();
    let digest = fields[0];
    let good = digest.len() == 64 && digest.bytes().all(|byte| byte.is_ascii_hexdigit());
    (good && fields.len() == 9).then(|| path(fields[7])).flatten().map(|path| (path, digest.into()))
}

fn compared(folder: &Path, due: &Digests, desk: &mut Desk) -> Found {
    let (mut found, mut new) = (Found::default(), Digests::new());
    let (mut walked, mut there) = (walk::walk(folder, desk), BTreeSet::new());
    for (number, file) in walked.files.iter().enumerate() {
        desk.progress(number, walked.files.len());
        let path = file.strip_prefix(folder).unwrap_or(file).to_path_buf();
        match (entry::digest(file), due.get(&path)) {
            (Ok((digest, ..)), Some(old)) if *old == digest => found.same += 1,
            (Ok((_, _, bytes)), Some(_)) => found.changed.push((path.clone(), state(&bytes))),
            (Ok((digest, ..)), None) => drop(new.insert(path.clone(), digest)),
            (Err(error), _) => {
                desk.error(&format!("{}: {}", shown(file), reason(&error)));
                walked.unread.push(file.clone());
            }
        }
        there.insert(path);
    }
    found.unread = walked.unread.len();
    let hidden = |path: &Path| walked.unread.iter().any(|bad| folder.join(path).starts_with(bad));
    let gone = due.iter().filter(|(path, _)| !there.contains(*path) && !hidden(path));
    found.gone(gone, new);
    found
}

impl Found {
    /// Files that are not in their places, and files that the catalogue has not.
    fn gone<'d>(&mut self, gone: impl Iterator<Item = (&'d PathBuf, &'d String)>, new: Digests) {
        let mut places: BTreeMap<String, VecDeque<PathBuf>> = BTreeMap::new();
        for (path, digest) in new {
            places.entry(digest).or_default().push_back(path);
        }
        for (path, digest) in gone {
            match places.get_mut(digest).and_then(VecDeque::pop_front) {
                Some(to) => self.moved.push((path.clone(), to)),
                None => self.missing.push(path.clone()),
            }
        }
        self.new = places.into_values().flatten().collect();
        self.new.sort();
    }
}

/// What a changed file is now.
fn state(bytes: &[u8]) -> String {
    match file::judge(bytes) {
        Ok(_) => "it still reads".into(),
        Err(refusal) => refusals::told(bytes, &refusal),
    }
}

fn name(path: &Path) -> String {
    escaped(path.as_os_str().as_bytes())
}

fn text(found: &Found, due: usize, desk: &mut Desk) -> Result<(), Stop> {
    let mut lines = Vec::new();
    lines.extend(found.missing.iter().map(|path| ("missing", name(path))));
    lines.extend(
        found.changed.iter().map(|(path, now)| ("changed", format!("{}: {now}", name(path)))),
    );
    lines.extend(
        found.moved.iter().map(|(path, to)| ("moved", format!("{} to {}", name(path), name(to)))),
    );
    lines.extend(found.new.iter().map(|path| ("new", name(path))));
    for (word, rest) in lines {
        let word = desk.paint(word, Color::Red);
        desk.line(&format!("{word}: {rest}"))?;
    }
    let unread = if found.unread > 0 { format!(", {} not read", found.unread) } else { "".into() };
    desk.line(&format!(
        "{} in the catalogue: {} as they were, {} missing, {} changed, {} moved; {} new{unread}",
        many(due, "file"),
        found.same,
        found.missing.len(),
        found.changed.len(),
        found.moved.len(),
        found.new.len()
    ))
}

fn objects(found: &Found) -> Vec<String> {
    let object = |state: &str, path: &Path| {
        Object::new().text("state", state).bytes("path", path.as_os_str().as_bytes())
    };
    let mut lines: Vec<_> =
        found.missing.iter().map(|path| object("missing", path).end()).collect();
    lines.extend(
        found.changed.iter().map(|(path, now)| object("changed", path).text("now", now).end()),
    );
    let to = |to: &Path| to.as_os_str().as_bytes().to_vec();
    lines.extend(
        found.moved.iter().map(|(path, at)| object("moved", path).bytes("to", &to(at)).end()),
    );
    lines.extend(found.new.iter().map(|path| object("new", path).end()));
    lines
}

//! `restore`: a file of an archive back to its place, and no later one lost.

use crate::args::Given;
use crate::desk::{Desk, Outcome, Status, Stop};
use crate::disk::{Disk, Fault, Like, READ_LIMIT};
use crate::json::Object;
use crate::text::{reason, shown};
use crate::{file, output, refusals, time};
use cockledrift::{compare, number, Later, Which};
use std::ffi::{OsStr, OsString};
use std::fs;
use std::io::{self, ErrorKind};
use std::os::unix::ffi::OsStrExt;
use std::os::unix::fs::MetadataExt;
use std::path::{Path, PathBuf};

/// What `--even-if-older` and `--even-if-unknown` permit.
#[derive(Clone, Copy, Default)]
pub struct Permits {
    pub older: bool,
    pub unknown: bool,
}

/// What is to be done: these bytes to this place, whose old bytes are kept.
pub struct Plan {
    pub bytes: Vec<u8>,
    pub to: PathBuf,
    /// The mode of a new file: that of the one that is restored.
    pub mode: u32,
    /// The old bytes as they were judged, up to the limit, and where they are kept.
    pub old: Option<(Vec<u8>, PathBuf)>,
}

pub fn run(given: &Given, desk: &mut Desk) -> Outcome {
    let [from, to] = [&given.names[0], &given.names[1]];
    if to == "-" {
        return Err(given.usage("TO is a file"));
    }
    let bytes = file::load(from)?;
    let permits =
        Permits { older: given.has("--even-if-older"), unknown: given.has("--even-if-unknown") };
    let Some(plan) = plan(from, bytes, to, permits)? else {
        return told(given, desk, "same", None, "it is the same already");
    };
    if let Err(refusal) = file::judge(&plan.bytes) {
        desk.warn(&format!("{}: warning: {}", shown(from), refusals::told(&plan.bytes, &refusal)));
    }
    let kept = plan.old.as_ref().map(|(_, kept)| kept.as_path());
    if given.has("--dry-run") {
        return told(given, desk, "would restore", kept, "would be restored");
    }
    carry_out(&Disk::new(Fault::Nothing), &plan)
        .map_err(|error| Stop::trouble(format!("{}: {}", shown(to), reason(&error))))?;
    told(given, desk, "restored", kept, "restored")
}

/// Says what was done, or would be, and where the replaced file is.
fn told(given: &Given, desk: &mut Desk, done: &str, kept: Option<&Path>, words: &str) -> Outcome {
    let [from, to] = [&given.names[0], &given.names[1]];
    if desk.json {
        let object = Object::new().bytes("from", from.as_bytes()).bytes("to", to.as_bytes());
        let object = object.text("done", done);
        let object = match kept {
            Some(kept) => object.bytes("kept", kept.as_os_str().as_bytes()),
            None => object,
        };
        desk.line(&object.end())?;
    } else {
        let kept = kept.map(|kept| format!("; the replaced file is {}", shown(kept)));
        desk.line(&format!("{}: {words}{}", shown(to), kept.unwrap_or_default()))?;
    }
    Ok(Status::Good)
}

/// What is to be done, nothing where both are the same, or why it is not done.
pub fn plan(
    from: &OsStr,
    bytes: Vec<u8>,
    to: &OsStr,
    permits: Permits,
) -> Result<Option<Plan>, Stop> {
    // Of a file over the limit only the front was read: it is never written.
    if bytes.len() as u64 >= READ_LIMIT {
        let refusal = file::judge(&bytes).err();
        return Err(
            refusal.map_or_else(|| Stop::no("too long"), |it| refusals::stop(from, &bytes, &it))
        );
    }
    let trouble = |words: &str| Err(Stop::trouble(format!("{}: {words}", shown(to))));
    let from_mode = fs::metadata(from).ok().filter(fs::Metadata::is_file);
    let mode = from_mode.map_or(0o666, |there| there.mode() & 0o666);
    match fs::metadata(to) {
        Err(error) if error.kind() == ErrorKind::NotFound => match fs::symlink_metadata(to) {
            Ok(_) => return trouble("it is a link to nothing"),
            Err(_) => return Ok(Some(Plan { bytes, to: to.into(), mode, old: None })),
        },
        // A pipe would never end, and a device is no place for a file.
        Ok(there) if !there.is_file() && !there.is_dir() => return trouble("it is no plain file"),
        _ => {}
    }
    let old = file::load(to)?;
    if old == bytes {
        return Ok(None);
    }
    judge((from, &bytes), (to, &old), permits)?;
    let place = match fs::canonicalize(to) {
        Ok(place) => place,
        Err(error) => return trouble(&reason(&error)),
    };
    let kept = kept(&place, &old);
    Ok(Some(Plan { bytes, to: place, mode, old: Some((old, kept)) }))
}

/// Whether the one may take the place of the other, by their times.
fn judge(
    (from, new): (&OsStr, &[u8]),
    (to, old): (&OsStr, &[u8]),
    permits: Permits,
) -> Result<(), Stop> {
    let kept = format!("{} is kept", shown(to));
    match compare(new, old) {
        Ok(Later::First(_)) => Ok(()),
        Ok(Later::Second(_)) if permits.older => Ok(()),
        Ok(Later::Second(_)) => {
            let seconds = [old, new].map(|file| time::second(file).unwrap_or_default());
            let by = time::span(seconds[0] - seconds[1]);
            let words = format!("{} is later than {}, by {by}", shown(to), shown(from));
            Err(Stop::no(format!("{words}: {kept} (try: --even-if-older)")))
        }
        Ok(Later::Same) => {
            let words = format!("{} and {} have the same second", shown(from), shown(to));
            let hint = format!("cockledrift diff; {} moved away can be restored", shown(to));
            Err(Stop::no(format!("{words} and other bytes: {kept} (try: {hint})")))
        }
        Err(_) if permits.unknown => Ok(()),
        Err(refused) => {
            let (name, bytes) = match refused.file {
                Which::First => (from, new),
                Which::Second => (to, old),
            };
            let words = format!("{}: {}", shown(name), refusals::bare(&refused.refusal));
            let hint = match refusals::hint(bytes, &refused.refusal) {
                hint if refused.refusal.number == number::BAD_TIME_LINE => hint,
                _ => "cockledrift check",
            };
            Err(Stop::no(format!("{words}: {kept} (try: {hint}; or --even-if-unknown)")))
        }
    }
}

/// Where the replaced file is kept: beside itself, under its own time. A name that
/// holds the same bytes already serves too.
fn kept(to: &Path, old: &[u8]) -> PathBuf {
    let mut name = OsString::from(to);
    name.push(".");
    name.push(time::second(old).map_or("unknown-time".into(), time::stamp));
    for number in 1.. {
        let mut name = name.clone();
        if number > 1 {
            name.push(format!(".{number}"));
        }
        let path = PathBuf::from(name);
        if fs::symlink_metadata(&path).is_err() || holds(&path, old) {
            return path;
        }
    }
    unreachable!("some number is free")
}

/// Whether this is a file of its own with all of these bytes.
fn holds(path: &Path, bytes: &[u8]) -> bool {
    fs::symlink_metadata(path)
        .is_ok_and(|there| there.is_file() && there.len() == bytes.len() as u64)
        && fs::read(path).is_ok_and(|there| there == bytes)
}

/// Does it: at every moment the place is wholly old or wholly new, and once it is
/// new the old bytes have a name of their own.
pub fn carry_out(disk: &Disk, plan: &Plan) -> io::Result<()> {
    if let Some((old, kept)) = &plan.old {
        keep(disk, &plan.to, old, kept)?;
    }
    let there = plan.old.as_ref().map(|_| fs::metadata(&plan.to)).transpose()?;
    let like = there.as_ref().map_or(Like::Mode(plan.mode), Like::File);
    let part = output::part(disk, &plan.to, &plan.bytes, like)?;
    let settled = match &plan.old {
        None => output::claim(disk, &part, &plan.to),
        Some((old, _)) => replace(disk, &part, plan, old),
    };
    if let Err(error) = settled {
        let _ = disk.remove(&part);
        return Err(error);
    }
    output::last(disk, &plan.to)
}

/// Puts the file in the place of what was judged, and of nothing else.
fn replace(disk: &Disk, part: &Path, plan: &Plan, old: &[u8]) -> io::Result<()> {
    if disk.read(&plan.to)? != old {
        return Err(io::Error::other("it has changed meanwhile, and is kept"));
    }
    disk.rename(part, &plan.to)
}

/// Gives the old file a second name, or, where the file system has none, a copy.
fn keep(disk: &Disk, to: &Path, old: &[u8], kept: &Path) -> io::Result<()> {
    if holds(kept, old) {
        // Perhaps by a run that was cut off before its name would last.
        return disk.sync_folder(output::folder(kept));
    }
    match disk.link(to, kept) {
        Ok(()) => match disk.read(kept) {
            Ok(there) if there == old => {}
            read => {
                // It is the file at TO, which stays: the second name goes again.
                let _ = disk.remove(kept);
                let changed = io::Error::other("it has changed meanwhile, and is kept");
                return Err(read.err().unwrap_or(changed));
            }
        },
        Err(error) if error.kind() == ErrorKind::AlreadyExists => return Err(error),
        Err(error) if old.len() as u64 >= READ_LIMIT => return Err(error),
        Err(_) => {
            let there = fs::metadata(to)?;
            let part = output::part(disk, kept, old, Like::File(&there))?;
            if let Err(error) = output::claim(disk, &part, kept) {
                let _ = disk.remove(&part);
                return Err(error);
            }
        }
    }
    disk.sync_folder(output::folder(kept))
}

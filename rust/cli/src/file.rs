//! 3d files as they come in, and what the library says of them.

use crate::desk::Stop;
use crate::disk;
use crate::refusals;
use crate::text::{reason, shown};
use cockledrift::{read, salvage, Opened, Reader, Record, Refusal, Saved, Sheet, RECORD_LIMIT};
use std::ffi::OsStr;
use std::fs::{self, File};
use std::io::{self, BufRead, BufReader, Read};

/// The bytes of a file, or of standard input: one more than a 3d file may have
/// at most.
pub fn load(name: &OsStr) -> Result<Vec<u8>, Stop> {
    let read = match name {
        name if name == "-" => disk::read(io::stdin().lock()),
        name => {
            File::open(name).and_then(|mut file| disk::steady(&mut file, |file| disk::read(file)))
        }
    };
    read.map_err(|error| Stop::trouble(format!("{}: {}", shown(name), reason(&error))))
}

/// What a line of a text has at most: a longer one is cut here, and is no line that
/// anything here takes.
const LINE_LIMIT: u64 = 1 << 16;

/// Goes through the lines of a text of any length, with their numbers from 1. The
/// last one counts where it is empty too.
pub fn lines(
    name: &OsStr,
    mut call: impl FnMut(usize, &[u8]) -> Result<(), Stop>,
) -> Result<(), Stop> {
    let trouble = |error| Stop::trouble(format!("{}: {}", shown(name), reason(&error)));
    let from: Box<dyn Read> = match name == "-" {
        true => Box::new(io::stdin().lock()),
        false => Box::new(File::open(name).map_err(trouble)?),
    };
    let mut from = BufReader::new(from);
    for number in 1.. {
        let mut line = Vec::new();
        from.by_ref().take(LINE_LIMIT).read_until(b'\n', &mut line).map_err(trouble)?;
        let ended = line.pop_if(|last| *last == b'\n').is_some();
        call(number, &line)?;
        if !ended && (line.len() as u64) < LINE_LIMIT {
            return Ok(());
        }
    }
    unreachable!("a text ends")
}

/// A good file's version, and where its items start.
pub fn judge(file: &[u8]) -> Result<Opened, Refusal> {
    match read(file, &mut []) {
        Err(refusal) if refusal.needed().is_none() => Err(refusal),
        _ => Reader::open(file).1,
    }
}

/// The header of a file that opens, as a sheet without records.
pub fn header(file: &[u8], opened: &Opened) -> Result<Sheet, Refusal> {
    Sheet::salvage(&file[..opened.place]).map(|(sheet, _)| sheet)
}

/// Goes through the records of a file, with their numbers.
pub fn each(
    file: &[u8],
    mut call: impl FnMut(usize, Record) -> Result<(), Stop>,
) -> Result<Result<usize, Refusal>, Stop> {
    let (mut reader, _) = Reader::open(file);
    let mut out = [0; RECORD_LIMIT];
    for number in 0.. {
        match reader.next(&mut out) {
            Ok(Some(found)) => call(number, found.record(&out))?,
            Ok(None) => return Ok(Ok(number)),
            Err(refusal) => return Ok(Err(refusal)),
        }
    }
    unreachable!("a file ends")
}

/// How many records a file has.
pub fn count(file: &[u8]) -> Result<usize, Refusal> {
    let (mut reader, mut out) = (Reader::open(file).0, [0; RECORD_LIMIT]);
    let mut count = 0;
    while reader.next(&mut out)?.is_some() {
        count += 1;
    }
    Ok(count)
}

/// The records of a file that was judged good.
pub fn records(
    name: &OsStr,
    file: &[u8],
    call: impl FnMut(usize, Record) -> Result<(), Stop>,
) -> Result<usize, Stop> {
    each(file, call)?.map_err(|refusal| refusals::stop(name, file, &refusal))
}

/// The sheet of a file, where there is memory for it.
pub fn sheet(name: &OsStr, file: &[u8]) -> Result<Sheet, Stop> {
    if let Some(needed) = read(file, &mut []).err().and_then(|refusal| refusal.needed()) {
        room(name, needed)?;
    }
    Sheet::read(file).map_err(|refusal| refusals::stop(name, file, &refusal))
}

/// What can be saved of a file, as a sheet, and the report.
pub fn saved(name: &OsStr, file: &[u8]) -> Result<(Sheet, Saved), Stop> {
    if let Some(needed) = salvage(file, &mut []).err().and_then(|refusal| refusal.needed()) {
        room(name, needed)?;
    }
    Sheet::salvage(file).map_err(|refusal| refusals::stop(name, file, &refusal))
}

/// Whether there is memory for so many bytes. Linux gives out more than it has, and
/// ends the program later: so it is asked what is free, too.
fn room(name: &OsStr, needed: usize) -> Result<(), Stop> {
    let free = free().unwrap_or(u64::MAX);
    match needed as u64 <= free && Vec::<u8>::new().try_reserve_exact(needed).is_ok() {
        true => Ok(()),
        false => {
            let words = format!("its records take {needed} bytes of memory, more than is free");
            Err(Stop::trouble(format!("{}: {words} (try: a larger machine)", shown(name))))
        }
    }
}

/// The bytes of memory that are free, where the system tells.
fn free() -> Option<u64> {
    let text = fs::read_to_string("/proc/meminfo").ok()?;
    let line = text.lines().find_map(|line| line.strip_prefix("MemAvailable:"))?;
    line.trim().strip_suffix(" kB")?.parse::<u64>().ok().map(|number| number * 1024)
}

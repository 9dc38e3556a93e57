//! Files judged strictly: cross-sections at known stations, stations at one place
//! each. The library refuses; here both records are looked up and put in words.

use crate::commands::list::words;
use crate::desk::Stop;
use crate::file;
use crate::json::Object;
use crate::text::{many, shown};
use cockledrift::{names_room, number, read_strict, Opened, Reader, Record, Refusal};
use std::collections::hash_map::RandomState;
use std::ffi::OsStr;
use std::hash::{BuildHasher, Hasher};

/// A good file's version, and where its items start.
pub fn judge(name: &OsStr, bytes: &[u8]) -> Result<Result<Opened, Refusal>, Stop> {
    let mut names = room(name, names_room(bytes))?;
    Ok(match read_strict(bytes, &mut [], &mut names, seed()) {
        Err(refusal) if refusal.needed().is_none() => Err(refusal),
        _ => Reader::open(bytes).1,
    })
}

/// A number that nobody can foresee: std draws the keys of its hash from the system.
fn seed() -> u64 {
    RandomState::new().build_hasher().finish()
}

fn room(name: &OsStr, needed: usize) -> Result<Vec<u8>, Stop> {
    let mut room = Vec::new();
    let words = || format!("{}: its names take {}", shown(name), many(needed, "byte"));
    room.try_reserve_exact(needed).map_err(|_| Stop::trouble(words()))?;
    room.resize(needed, 0);
    Ok(room)
}

/// The record that is refused, and the station of its name: the first one before
/// it, or the first one behind it where there is none.
struct Found {
    refused: (usize, String),
    station: Option<(usize, String)>,
}

/// Both records of a refusal of strict reading.
fn found(bytes: &[u8], refusal: &Refusal) -> Option<Found> {
    if ![number::UNKNOWN_STATION, number::MOVED_STATION].contains(&refusal.number) {
        return None;
    }
    // The item at the refusal's place makes the record behind all that come before it.
    let before = count(&bytes[..refusal.place]);
    let (mut label, mut refused) = (Vec::new(), None);
    each(bytes, |number, record| {
        if number == before {
            (label, refused) = (record.label().to_vec(), Some((number, words::of(&record))));
        }
    });
    let mut station = None;
    each(bytes, |number, record| {
        if number != before && station.is_none() && named(&record, &label) {
            station = Some((number, words::of(&record)));
        }
    });
    Some(Found { refused: refused?, station })
}

fn named(record: &Record, label: &[u8]) -> bool {
    matches!(record, Record::Station(station) if station.label == label)
}

fn count(bytes: &[u8]) -> usize {
    let mut count = 0;
    each(bytes, |_, _| count += 1);
    count
}

/// The records before the first refused item.
fn each(bytes: &[u8], mut call: impl FnMut(usize, Record)) {
    let walked = file::each(bytes, |number, record| {
        call(number, record);
        Ok(())
    });
    debug_assert!(walked.is_ok(), "nothing stops the walk");
}

/// Both records in words: ` (record 5, station a.1: (1.00 0.00 0.00) m; before it
/// record 2, station a.1: (0.00 0.00 0.00) m)`.
pub fn told(bytes: &[u8], refusal: &Refusal) -> String {
    let Some(Found { refused: (number, words), station }) = found(bytes, refusal) else {
        return String::new();
    };
    let other = match station {
        Some((other, words)) if other < number => format!("before it record {other}, {words}"),
        Some((other, words)) => format!("behind it record {other}, {words}"),
        None => "no station of this name behind it either".into(),
    };
    format!(" (record {number}, {words}; {other})")
}

/// The fields of both records.
pub fn object(object: Object, bytes: &[u8], refusal: &Refusal) -> Object {
    let Some(Found { refused: (number, words), station }) = found(bytes, refusal) else {
        return object;
    };
    let object = object.raw("record", number).text("record_is", &words);
    match station {
        Some((number, words)) => object.raw("station", number).text("station_is", &words),
        None => object.raw("station", "null"),
    }
}

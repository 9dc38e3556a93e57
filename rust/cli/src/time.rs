//! The second of a file's time line, which the library finds by comparing.

use crate::text::{civil, many};
use cockledrift::{compare, Later, Refusal};

/// A file that has this second.
fn at(second: u32) -> Vec<u8> {
    format!("Survex 3D Image File\nv8\n\n@{second}\n\0").into_bytes()
}

/// The second of a file, or why it has none. The library alone reads time lines:
/// the second is looked for between files that have known ones.
pub fn second(file: &[u8]) -> Result<u32, Refusal> {
    let (mut low, mut high) = (0, u32::MAX);
    while low < high {
        let middle = low + (high - low) / 2;
        match compare(file, &at(middle)).map_err(|refused| refused.refusal)? {
            Later::First(_) => low = middle + 1,
            _ => high = middle,
        }
    }
    Ok(low)
}

/// `2002-03-17 14:01:07 UTC`.
pub fn utc(second: u32) -> String {
    let clock = second % 86_400;
    let (hour, minute, second_of) = (clock / 3600, clock / 60 % 60, clock % 60);
    format!("{} {hour:02}:{minute:02}:{second_of:02} UTC", civil(i64::from(second / 86_400)))
}

/// `2002-03-17T140107Z`, for a file name.
pub fn stamp(second: u32) -> String {
    utc(second).replace(" UTC", "Z").replace(' ', "T").replace(':', "")
}

/// So many seconds in words.
pub fn span(seconds: u32) -> String {
    let parts = [
        (seconds / 86_400, "day"),
        (seconds / 3600 % 24, "hour"),
        (seconds / 60 % 60, "minute"),
        (seconds % 60, "second"),
    ];
    let words = parts.iter().filter(|(number, _)| *number != 0);
    let words: Vec<_> = words.map(|(number, word)| many(*number as usize, word)).collect();
    words.join(", ")
}

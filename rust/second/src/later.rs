//! Which of two files is later, by the time lines of their headers.

use crate::header::header;
use crate::{no, Refusal};

/// Which file is later. A refusal names the file, 1 or 2.
#[derive(Clone, Copy, PartialEq, Eq, Debug)]
pub enum Later {
    First,
    Second,
    Same,
    Refused { file: u8, number: u8, place: usize },
}

/// Compares the time lines of two files, with the later file's time line, or
/// "an empty part when same or refused".
///
/// "Only headers are judged, the first file's first: 16, 1, 2, 3, 4, 17".
pub fn compare<'a>(first: &'a [u8], second: &'a [u8]) -> (Later, &'a [u8]) {
    let refused = |file, Refusal { number, place }| {
        (Later::Refused { file, number: number as u8, place }, &[][..])
    };
    let (one, first_line) = match timed(first) {
        Ok(timed) => timed,
        Err(refusal) => return refused(1, refusal),
    };
    let (two, second_line) = match timed(second) {
        Ok(timed) => timed,
        Err(refusal) => return refused(2, refusal),
    };
    if one > two {
        (Later::First, first_line)
    } else if two > one {
        (Later::Second, second_line)
    } else {
        (Later::Same, &[])
    }
}

/// A file's seconds and its time line.
fn timed(file: &[u8]) -> Result<(u64, &[u8]), Refusal> {
    let head = header(file)?;
    let time = seconds(head.time).ok_or(no(17, head.time_place))?;
    Ok((time, head.time))
}

/// The seconds since 1970 that a time line says, in either of its two forms.
pub fn seconds(line: &[u8]) -> Option<u64> {
    plain_seconds(line).or_else(|| calendar_seconds(line))
}

/// "`@` and 1 to 10 digits of at most 4294967295"
fn plain_seconds(line: &[u8]) -> Option<u64> {
    let digits = line.strip_prefix(b"@")?;
    if digits.is_empty() || digits.len() > 10 {
        return None;
    }
    number(digits).filter(|&seconds| seconds <= u64::from(u32::MAX))
}

/// "`Www,YYYY.MM.DD hh:mm:ss Z`: three bytes for the day name", "readable only
/// when its zone is exactly `GMT` or `UTC`"
fn calendar_seconds(line: &[u8]) -> Option<u64> {
    let (stamp, zone) = line.split_first_chunk::<24>()?;
    let marks = [stamp[3], stamp[8], stamp[11], stamp[14], stamp[17], stamp[20], stamp[23]];
    if marks != *b",.. :: " || !matches!(zone, b"GMT" | b"UTC") {
        return None;
    }
    let days = days(number(&stamp[4..8])?, number(&stamp[9..11])?, number(&stamp[12..14])?)?;
    let hours = number(&stamp[15..17]).filter(|&hours| hours <= 23)?;
    let minutes = number(&stamp[18..20]).filter(|&minutes| minutes <= 59)?;
    let seconds = number(&stamp[21..23]).filter(|&seconds| seconds <= 59)?;
    Some(((days * 24 + hours) * 60 + minutes) * 60 + seconds)
}

/// "month lengths from a table of two rows, plain and leap years"
const MONTHS: [[u64; 12]; 2] = [
    [31, 28, 31, 30, 31, 30, 31, 31, 30, 31, 30, 31],
    [31, 29, 31, 30, 31, 30, 31, 31, 30, 31, 30, 31],
];

/// Days since 1 January 1970 of "a real date from 1970 to 2099".
fn days(year: u64, month: u64, day: u64) -> Option<u64> {
    if !(1970..=2099).contains(&year) || !(1..=12).contains(&month) {
        return None;
    }
    let months = &MONTHS[usize::from(is_leap(year))];
    let before = month as usize - 1;
    if day < 1 || day > months[before] {
        return None;
    }
    let years: u64 = (1970..year).map(|year| if is_leap(year) { 366 } else { 365 }).sum();
    Some(years + months[..before].iter().sum::<u64>() + day - 1)
}

/// 2000 is a leap year, and 1900 and 2100 are out of reach.
fn is_leap(year: u64) -> bool {
    year.is_multiple_of(4)
}

/// A number of a few digits; nothing if any byte is no digit.
fn number(digits: &[u8]) -> Option<u64> {
    digits.iter().try_fold(0, |number, &digit| {
        digit.is_ascii_digit().then(|| number * 10 + u64::from(digit - b'0'))
    })
}

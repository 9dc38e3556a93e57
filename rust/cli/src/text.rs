//! Names, bytes, dates and distances as text.

use cockledrift::Date;
use std::ffi::OsStr;
use std::io;
use std::os::unix::ffi::OsStrExt;

/// A file name in a message.
pub fn shown(name: impl AsRef<OsStr>) -> String {
    match name.as_ref() {
        name if name == "-" => "standard input".into(),
        name if name.is_empty() => "(an empty name)".into(),
        name => escaped(name.as_bytes()),
    }
}

/// Whether a terminal may take the character for something else than a letter:
/// control characters, and marks that break lines, turn the direction or are not
/// seen. All are below U+10000.
pub fn drives(letter: char) -> bool {
    letter.is_control()
        || matches!(letter, '\u{61c}' | '\u{200b}'..='\u{200f}' | '\u{2028}'..='\u{202e}')
        || matches!(letter, '\u{2060}'..='\u{206f}' | '\u{feff}')
}

/// Bytes on one line: what is not UTF-8, control characters and the backslash
/// become `\xNN`.
pub fn escaped(bytes: &[u8]) -> String {
    let mut text = String::new();
    for part in bytes.utf8_chunks() {
        for letter in part.valid().chars() {
            match letter == '\\' || drives(letter) {
                true => hexed(&mut text, letter),
                false => text.push(letter),
            }
        }
        part.invalid().iter().for_each(|byte| text += &format!("\\x{byte:02x}"));
    }
    text
}

fn hexed(text: &mut String, letter: char) {
    let mut bytes = [0; 4];
    for byte in letter.encode_utf8(&mut bytes).bytes() {
        *text += &format!("\\x{byte:02x}");
    }
}

/// The bytes that were escaped; none where the text is no such text.
pub fn unescaped(text: &str) -> Option<Vec<u8>> {
    let mut parts = text.split('\\');
    let mut bytes = parts.next()?.as_bytes().to_vec();
    for part in parts {
        let digits = part.strip_prefix('x')?.get(..2)?;
        bytes.push(hex_byte(digits)?);
        bytes.extend(&part.as_bytes()[3..]);
    }
    Some(bytes)
}

/// The byte of two hex digits.
pub fn hex_byte(digits: &str) -> Option<u8> {
    let good = digits.bytes().all(|digit| digit.is_ascii_hexdigit());
    u8::from_str_radix(digits, 16).ok().filter(|_| good)
}

/// Bytes in hex.
pub fn hex(bytes: &[u8]) -> String {
    bytes.iter().map(|byte| format!("{byte:02x}")).collect()
}

/// What an error says, without its number.
pub fn reason(error: &io::Error) -> String {
    let words = error.to_string();
    words.split(" (os error").next().unwrap_or_default().into()
}

/// Centimetres in metres.
pub fn metres(centimetres: impl Into<i64>) -> String {
    let all: i64 = centimetres.into();
    let sign = if all < 0 { "-" } else { "" };
    format!("{sign}{}.{:02}", all.abs() / 100, all.abs() % 100)
}

/// The date of a day, counted from 1 January 1970.
pub fn civil(days: i64) -> String {
    // Years that begin in March have their leap day last.
    let days = days + 719_468;
    let (era, day) = (days.div_euclid(146_097), days.rem_euclid(146_097));
    let year = (day - day / 1460 + day / 36_524 - day / 146_096) / 365;
    let rest = day - (365 * year + year / 4 - year / 100);
    let month = (5 * rest + 2) / 153;
    let date = rest - (153 * month + 2) / 5 + 1;
    let (month, next) = if month < 10 { (month + 3, 0) } else { (month - 9, 1) };
    format!("{:04}-{month:02}-{date:02}", year + era * 400 + next)
}

/// The date of a day of a file, counted from 1 January 1900.
pub fn day(day: u16) -> String {
    civil(i64::from(day) - 25_567)
}

/// A date of a record.
pub fn dated(date: Date) -> String {
    match date {
        Date::None => "no date".into(),
        Date::Day(first) => day(first),
        Date::Range(first, last) => format!("{} to {}", day(first), day(last)),
    }
}

/// A number of things.
pub fn many(number: usize, one: &str) -> String {
    match number {
        1 => format!("1 {one}"),
        _ => format!("{number} {one}s"),
    }
}

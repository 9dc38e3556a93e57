//! The header of a 3d file.

use crate::{no, Refusal, LONGEST_FILE, LONGEST_TIME, LONGEST_TITLE};

/// The 21 bytes every file begins with.
pub(crate) const FILE_ID: &[u8; 21] = b"Survex 3D Image File\n";
const TITLE_PLACE: usize = 24;

pub(crate) struct Header<'a> {
    pub version: u8,
    pub title: &'a [u8],
    pub time: &'a [u8],
    /// Where the time line begins.
    pub time_place: usize,
    pub extended: bool,
    /// Where the first item begins.
    pub items: usize,
}

/// "16, 1, 2, 3, the v8 byte"
pub(crate) fn header(file: &[u8]) -> Result<Header<'_>, Refusal> {
    if file.len() > LONGEST_FILE {
        return Err(no(16, 0));
    }
    if !file.starts_with(FILE_ID) {
        return Err(no(1, 0));
    }
    let version = version(file).ok_or(no(2, 21))?;
    let title = line(file, TITLE_PLACE, LONGEST_TITLE).ok_or(no(3, TITLE_PLACE))?;
    let time_place = TITLE_PLACE + title.len() + 1;
    let time = line(file, time_place, LONGEST_TIME).ok_or(no(3, time_place))?;
    let after = time_place + time.len() + 1;
    let extended = version == 8 && extended(file, after)?;
    let items = if version == 8 { after + 1 } else { after };
    Ok(Header { version, title, time, time_place, extended, items })
}

fn version(file: &[u8]) -> Option<u8> {
    match file.get(21..24)? {
        [b'v', digit @ b'3'..=b'8', b'\n'] => Some(digit - b'0'),
        _ => None,
    }
}

/// The line from `place` without its linefeed, or nothing if it is
/// "unended, too long or with final carriage return".
fn line(file: &[u8], place: usize, longest: usize) -> Option<&[u8]> {
    let rest = file.get(place..)?;
    // A linefeed further on than this would end a line that is too long.
    let window = &rest[..rest.len().min(longest + 1)];
    let end = window.iter().position(|&byte| byte == b'\n')?;
    let line = &rest[..end];
    (line.last() != Some(&b'\r')).then_some(line)
}

/// The v8 byte: "0x80 an extended elevation, other bits reserved".
fn extended(file: &[u8], place: usize) -> Result<bool, Refusal> {
    match file.get(place) {
        None => Err(no(3, file.len())),
        Some(0x00) => Ok(false),
        Some(0x80) => Ok(true),
        Some(_) => Err(no(4, place)),
    }
}

//! The header of a file, and the front of its sheet.

use crate::Refusal;

const FILE_ID: &[u8; 21] = b"Survex 3D Image File\n";
const LONGEST_FILE: usize = 16_777_216;
const LONGEST_TITLE: usize = 4096;
const LONGEST_TIME: usize = 64;

pub(crate) struct Header<'f> {
    pub version: u8,
    pub extended: bool,
    pub title: &'f [u8],
    pub time: &'f [u8],
    /// Where the first item stands.
    pub items: usize,
}

pub(crate) fn read(file: &[u8]) -> Result<Header<'_>, Refusal> {
    if file.len() > LONGEST_FILE {
        return Err((16, 0));
    }
    let Some(rest) = file.strip_prefix(FILE_ID) else { return Err((1, 0)) };
    let [b'v', digit @ b'3'..=b'8', b'\n', rest @ ..] = rest else { return Err((2, 21)) };
    let version = digit - b'0';
    let place = |rest: &[u8]| file.len() - rest.len();
    let (title, after) = line(rest, LONGEST_TITLE).ok_or((3, place(rest)))?;
    let (time, after) = line(after, LONGEST_TIME).ok_or((3, place(after)))?;
    let mut header = Header { version, extended: false, title, time, items: place(after) };
    if version == 8 {
        match after.first() {
            None => return Err((3, file.len())),
            Some(0x00) => {}
            Some(0x80) => header.extended = true,
            Some(_) => return Err((4, header.items)),
        }
        header.items += 1;
    }
    Ok(header)
}

/// A line without its linefeed, and what follows; nothing where it is unended, longer
/// than `longest` or ends in a carriage return.
fn line(rest: &[u8], longest: usize) -> Option<(&[u8], &[u8])> {
    let end = rest.iter().take(longest + 1).position(|&byte| byte == b'\n')?;
    let (line, after) = (&rest[..end], &rest[end + 1..]);
    (line.last() != Some(&b'\r')).then_some((line, after))
}

impl Header<'_> {
    /// The sheet's version byte and its header record with the two length bytes.
    pub fn size(&self) -> usize {
        7 + self.title.len() + self.time.len()
    }

    /// Lays both over `front`, which has that size.
    pub fn lay(&self, front: &mut [u8]) {
        let (title, time) = (self.title.len() as u16, self.time.len() as u16);
        let (numbers, text) = front.split_at_mut(7);
        let [length, title_length] = [4 + title + time, title].map(u16::to_be_bytes);
        numbers[0] = 2;
        numbers[1..3].copy_from_slice(&length);
        numbers[3] = 0;
        numbers[4] = u8::from(self.extended);
        numbers[5..].copy_from_slice(&title_length);
        let (title, time) = text.split_at_mut(self.title.len());
        title.copy_from_slice(self.title);
        time.copy_from_slice(self.time);
    }
}

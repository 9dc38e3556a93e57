//! Editing a file that was written here.

#![forbid(unsafe_code)]

use crate::answer::told;
use crate::{library, room, Answer, Refusal};

/// Replaces `count` records of a v8 file, from record `first` on, by those of
/// `new`, and writes the edited file to the front of the lent `out`.
///
/// The file has to be exactly what [`write`](crate::write) gives for its sheet,
/// else it is refused with 14: [`convert`](crate::convert) it first. `new` has
/// records as a sheet of version 2 has them, each with its length bytes, and no
/// version byte and no header. What is written is what writing the edited sheet
/// would write. A refusal (the reader's, 14, 15, 12, 13, 16 or 11) leaves `out`
/// as it was.
///
/// ```
/// let file = b"Survex 3D Image File\nv8\nA\n@0\n\0\0\0";
/// let station = b"\0\x0f\x02\x04\0\0\0\0\0\0\0\0\0\0\0\0a";
/// let mut out = [0; 60];
/// let done = cockledrift::edit(file, 0, 0, station, &mut out)?;
/// assert_eq!((done.bytes, done.records), (47, 1));
/// assert_eq!(&out[30..34], b"\x84\x01a\0");
/// # Ok::<(), cockledrift::Refusal>(())
/// ```
pub fn edit(file: &[u8], first: usize, count: usize, new: &[u8], out: &mut [u8]) -> Answer {
    told(library::edit(file, first, count, new, out))
}

/// The edited file.
///
/// ```
/// let file = b"Survex 3D Image File\nv8\nA\n@0\n\0\0\0";
/// let refusal = cockledrift::edit_vec(file, 0, 1, b"").unwrap_err();
/// assert_eq!((refusal.number, refusal.place), (15, 0));
/// ```
pub fn edit_vec(file: &[u8], first: usize, count: usize, new: &[u8]) -> Result<Vec<u8>, Refusal> {
    room::filled(|out| edit(file, first, count, new, out))
}

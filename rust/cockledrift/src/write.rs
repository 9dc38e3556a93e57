//! Writing a sheet as a file.

#![forbid(unsafe_code)]

use crate::answer::told;
use crate::{library, room, Answer, Refusal};

/// Writes a sheet, of version 1 or 2, as a v8 file to the front of the lent
/// `out`.
///
/// A refusal (12, 13, 16 or 11) leaves it as it was. What is written reads back
/// as the same sheet, in version 2.
///
/// ```
/// let sheet = b"\x01\0\x07\0\0\0\x01A@0";
/// let mut out = [0; 32];
/// let done = cockledrift::write(sheet, &mut out)?;
/// assert_eq!((done.bytes, done.records, done.version), (32, 0, 8));
/// assert_eq!(&out, b"Survex 3D Image File\nv8\nA\n@0\n\0\0\0");
/// # Ok::<(), cockledrift::Refusal>(())
/// ```
pub fn write(sheet: &[u8], out: &mut [u8]) -> Answer {
    told(library::write(sheet, out))
}

/// The v8 file of a sheet.
///
/// ```
/// let refusal = cockledrift::write_vec(b"\x03").unwrap_err();
/// assert_eq!((refusal.number, refusal.place), (12, 0));
/// ```
pub fn write_vec(sheet: &[u8]) -> Result<Vec<u8>, Refusal> {
    room::filled(|out| write(sheet, out))
}

/// Writes a sheet, of version 1 or 2, as a v7 file, for older programs, to the
/// front of the lent `out`.
///
/// A refusal (12, 23, 16 or 11) leaves it as it was. 23 is the first record that
/// v7 cannot carry: a leg with a style from 1 to 4, or a station with flag 0x20 or
/// 0x40; an extended elevation is refused with 23 at place 0. What is written
/// reads back as the same sheet, in version 2, but that style normal comes back
/// as not said. A v7 file cannot be edited: that is refused with 14.
///
/// ```
/// let sheet = b"\x02\0\x07\0\0\0\x01A@0";
/// let mut out = [0; 30];
/// let done = cockledrift::write_v7(sheet, &mut out)?;
/// assert_eq!((done.bytes, done.records, done.version), (30, 0, 7));
/// assert_eq!(&out, b"Survex 3D Image File\nv7\nA\n@0\n\0");
/// # Ok::<(), cockledrift::Refusal>(())
/// ```
pub fn write_v7(sheet: &[u8], out: &mut [u8]) -> Answer {
    told(library::write_v7(sheet, out))
}

/// The v7 file of a sheet.
///
/// ```
/// // The sheet of an extended elevation.
/// let refusal = cockledrift::write_v7_vec(b"\x02\0\x07\0\x01\0\x01A@0").unwrap_err();
/// assert_eq!((refusal.number, refusal.place), (23, 0));
/// ```
pub fn write_v7_vec(sheet: &[u8]) -> Result<Vec<u8>, Refusal> {
    room::filled(|out| write_v7(sheet, out))
}

//! Reading a file into a sheet.

#![forbid(unsafe_code)]

use crate::answer::told;
use crate::{library, room, Answer, Refusal};

/// Reads a file, v3 to v8, to the front of the lent `sheet`.
///
/// The sheet is of version 2. A refusal (16, 1 to 10 or 11) leaves it as it was.
///
/// ```
/// let mut file = b"Survex 3D Image File\nv8\nA\n@0\n\0\x82\x03a.1".to_vec();
/// file.extend([0; 12]); // x y z of the station a.1
/// file.extend([0, 0]);
/// let mut sheet = [0xee; 40];
/// let done = cockledrift::read(&file, &mut sheet)?;
/// assert_eq!((done.bytes, done.records, done.version), (29, 1, 8));
/// assert_eq!(sheet[10..14], [0, 17, 2, 2]);
/// assert_eq!(&sheet[26..29], b"a.1");
/// assert_eq!(sheet[29..], [0xee; 11]);
/// # Ok::<(), cockledrift::Refusal>(())
/// ```
pub fn read(file: &[u8], sheet: &mut [u8]) -> Answer {
    told(library::read(file, sheet))
}

/// The sheet of a file.
///
/// A file of 16 MiB can ask for a sheet of several GiB, since each of its legs
/// may have a label of 4,096 bytes: where files come from strangers, lend
/// [`read`] as much as you would give.
///
/// ```
/// let file = b"Survex 3D Image File\nv3\nA\nT\n\0";
/// assert_eq!(cockledrift::read_vec(file)?, b"\x02\0\x06\0\0\0\x01AT");
/// # Ok::<(), cockledrift::Refusal>(())
/// ```
pub fn read_vec(file: &[u8]) -> Result<Vec<u8>, Refusal> {
    room::filled(|sheet| read(file, sheet))
}

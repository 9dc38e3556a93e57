//! What can be saved of a damaged file.

#![forbid(unsafe_code)]

use crate::answer::byte;
use crate::library::{self, SalvageNumbers};
use crate::{room, Done, Refusal};

/// What salvaging gave: the sheet of all records made by items before the first
/// refused one, and the report.
#[derive(Clone, Copy, PartialEq, Eq, Hash, Debug)]
pub struct Saved {
    /// The bytes and records of the sheet, and the version of the file.
    pub done: Done,
    /// The refusal that [`read`](crate::read) gives, with its place; none where
    /// the file is whole.
    pub refusal: Option<Refusal>,
    /// The place of the refusal; the file's length where there is none.
    pub place: usize,
    /// How many of the file's bytes stand from that place on.
    pub left: usize,
}

/// Writes the records made by the items before the first refused one to the
/// front of the lent `sheet`. No record is made up or changed.
///
/// A header that does not read is refused as in reading (16, 1, 2, 3, or 4 for
/// the v8 byte), and a sheet that is too small with 11; a refusal leaves the
/// sheet as it was.
///
/// ```
/// let mut file = b"Survex 3D Image File\nv8\nA\n@0\n\0\x82\x03a.1".to_vec();
/// file.extend([0; 12]); // x y z of the station a.1
/// file.extend([0x82, 1, b'b', 7, 7]); // another station, cut off
/// let mut sheet = [0xee; 40];
/// let saved = cockledrift::salvage(&file, &mut sheet)?;
/// assert_eq!((saved.done.bytes, saved.done.records), (29, 1));
/// let refusal = saved.refusal.expect("a refused item");
/// assert_eq!((refusal.number, saved.place, saved.left), (5, 47, 5));
/// assert_eq!(&sheet[26..29], b"a.1");
/// # Ok::<(), cockledrift::Refusal>(())
/// ```
pub fn salvage(file: &[u8], sheet: &mut [u8]) -> Result<Saved, Refusal> {
    let SalvageNumbers { refused, bytes, records, version, number, place, left } =
        library::salvage(file, sheet);
    match byte(refused) {
        0 => Ok(Saved {
            done: Done { bytes, records, version: byte(version) },
            refusal: match byte(number) {
                0 => None,
                number => Some(Refusal { number, place }),
            },
            place,
            left,
        }),
        number => Err(Refusal { number, place }),
    }
}

/// The sheet of what can be saved, in a buffer of its own. The same is to be
/// said as of [`read_vec`](crate::read_vec): it may be long.
///
/// ```
/// let file = b"Survex 3D Image File\nv3\nA\nT\n";
/// assert_eq!(cockledrift::salvage_vec(file)?, b"\x02\0\x06\0\0\0\x01AT");
/// # Ok::<(), cockledrift::Refusal>(())
/// ```
pub fn salvage_vec(file: &[u8]) -> Result<Vec<u8>, Refusal> {
    room::filled(|sheet| salvage(file, sheet).map(|saved| saved.done))
}

//! Reading a file strictly: cross-sections at known stations, stations at one
//! place each.

#![forbid(unsafe_code)]

use crate::answer::told;
use crate::{library, room, Answer, Reader, Record, Refusal, RECORD_LIMIT};

/// What a name takes of the room beside its own bytes.
const BESIDE_NAME: usize = 32;

/// Reads a file, v3 to v8, to the front of the lent `sheet` as
/// [`read`](crate::read) does, and refuses two things more, with the item's
/// place: a cross-section whose name no earlier station has (18), and a station
/// whose name came earlier at another place (19). The same name at the same
/// place is fine.
///
/// The names of the stations are kept in `names`, lent room of any content: each
/// different name takes its own bytes and 32 more. Where the next one does not
/// fit what is left, that is 22; [`names_room`] always suffices. However the
/// call ends, `names` then holds zeros; a refusal leaves `sheet` as it was.
///
/// No answer hangs on the seed. It keeps a file from being made so that the call
/// takes long: for files of strangers draw it at random, and any number will do
/// for files of your own.
///
/// ```
/// let mut file = b"Survex 3D Image File\nv8\nA\n@0\n\0\x82\x03a.1".to_vec();
/// file.extend([0; 12]); // x y z of the station a.1
/// file.extend(b"\x82\x11\x31\x01"); // the same name again,
/// file.extend([0; 11]); // a centimetre to the east
/// file.extend([0, 0]);
/// let (mut sheet, mut names) = ([0xee; 60], [0xee; 50]);
/// assert_eq!(cockledrift::read(&file, &mut sheet)?.records, 2);
/// let refusal = cockledrift::read_strict(&file, &mut sheet, &mut names, 7).unwrap_err();
/// assert_eq!((refusal.number, refusal.place), (cockledrift::number::MOVED_STATION, 47));
/// assert_eq!(names, [0; 50]);
/// # Ok::<(), cockledrift::Refusal>(())
/// ```
pub fn read_strict(file: &[u8], sheet: &mut [u8], names: &mut [u8], seed: u64) -> Answer {
    told(library::read_strict(file, sheet, names, seed))
}

/// The sheet of a file that reads strictly. The same is to be said as of
/// [`read_vec`](crate::read_vec), of the names too.
///
/// ```
/// let file = b"Survex 3D Image File\nv8\nA\n@0\n\0\x30\x01a\0\0\0\0\0\0\0\0\0\0";
/// assert_eq!(cockledrift::read_vec(file)?.len(), 36);
/// let refusal = cockledrift::read_strict_vec(file, 7).unwrap_err();
/// assert_eq!((refusal.number, refusal.place), (cockledrift::number::UNKNOWN_STATION, 30));
/// # Ok::<(), cockledrift::Refusal>(())
/// ```
pub fn read_strict_vec(file: &[u8], seed: u64) -> Result<Vec<u8>, Refusal> {
    let needed = names_room(file);
    room::filled(|sheet| read_strict(file, sheet, &mut vec![0; needed], seed))
}

/// Room for names that suffices to read a file strictly: for each station that
/// reading makes before it stops, its name and 32 bytes. Names that come again
/// are counted again, so fewer may do.
///
/// ```
/// let mut file = b"Survex 3D Image File\nv8\nA\n@0\n\0\x82\x03a.1".to_vec();
/// file.extend([0; 14]);
/// assert_eq!(cockledrift::names_room(&file), 35);
/// ```
pub fn names_room(file: &[u8]) -> usize {
    let (mut reader, _) = Reader::open(file);
    let (mut out, mut needed) = ([0; RECORD_LIMIT], 0);
    while let Ok(Some(found)) = reader.next(&mut out) {
        if let Record::Station(station) = found.record(&out) {
            needed += BESIDE_NAME + station.label.len();
        }
    }
    needed
}

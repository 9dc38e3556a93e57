//! Strict reading: sections only at known stations, stations at one place each.

use std::collections::HashMap;
use std::mem;

use crate::item::{Item, What};
use crate::read::{answer, pass, Wanted};
use crate::{Answer, Number};

const UNKNOWN_STATION: Number = 18;
const MOVED_STATION: Number = 19;
const INDEX_FULL: Number = 22;

/// "Each different name takes its own bytes and 32 more of that room".
const BESIDE_NAME: usize = 32;

/// A station's item has at least a code, a byte for the label and x y z.
const LEAST_STATION: usize = 1 + 1 + 12;

/// Reads as `read` does, but strictly, with an index of station names in the
/// lent `room`.
///
/// Refusals are those of reading, and in an item, after 8: "18 unknown station
/// and 19 moved station, with the item's place [...]; 22 index full, same
/// place, given exactly when the next different name doesn't fit what is left,
/// after 19". They leave `sheet` untouched. "However a strict reading ends, the
/// index room then holds zeros".
pub fn read_strict(file: &[u8], sheet: &mut [u8], room: &mut [u8]) -> Answer {
    let answer = strictly(file, sheet, room);
    room.fill(0);
    answer
}

fn strictly(file: &[u8], sheet: &mut [u8], room: &mut [u8]) -> Answer {
    // Neither the room nor the file can hold more names than that.
    let most = (room.len() / BESIDE_NAME).min(file.len() / LEAST_STATION);
    let mut index = Index { stations: HashMap::with_capacity(most), left: room };
    answer(pass::<true>(file, sheet, Wanted::WholeFile, |item, name| index.judge(item, name)))
}

/// The names of all earlier stations, kept in the room, with their coordinates
/// as they stand in the file; and what is left of the room.
struct Index<'r, 'a> {
    stations: HashMap<&'r [u8], &'a [u8; 12]>,
    left: &'r mut [u8],
}

impl<'a> Index<'_, 'a> {
    /// Only stations and sections name a station: the label of a leg is its
    /// survey's.
    #[inline]
    fn judge(&mut self, item: &Item<'a>, name: &[u8]) -> Result<(), Number> {
        match item.what {
            What::Station { at, .. } => self.station(name, at),
            What::Narrow { .. } | What::Wide { .. } => self.section(name),
            _ => Ok(()),
        }
    }

    /// "A section whose full name no earlier station has is refused".
    fn section(&self, name: &[u8]) -> Result<(), Number> {
        if self.stations.contains_key(name) {
            Ok(())
        } else {
            Err(UNKNOWN_STATION)
        }
    }

    /// "a station whose name came earlier with other coordinates" is refused;
    /// "The same name with the same coordinates is fine."
    fn station(&mut self, name: &[u8], at: &'a [u8; 12]) -> Result<(), Number> {
        match self.stations.get(name) {
            Some(&earlier) if earlier == at => Ok(()),
            Some(_) => Err(MOVED_STATION),
            None => self.add(name, at),
        }
    }

    /// Keeps a name that came for the first time.
    fn add(&mut self, name: &[u8], at: &'a [u8; 12]) -> Result<(), Number> {
        // When it does not fit the reading ends, so nothing need be left.
        let left = mem::take(&mut self.left);
        let taken = left.split_at_mut_checked(name.len() + BESIDE_NAME);
        let (own, left) = taken.ok_or(INDEX_FULL)?;
        let (kept, _) = own.split_at_mut(name.len());
        kept.copy_from_slice(name);
        self.stations.insert(kept, at);
        self.left = left;
        Ok(())
    }
}

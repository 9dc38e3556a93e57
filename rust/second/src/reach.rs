//! How far a survey reaches.

use crate::sheet::{self, Record};
use crate::{no, Refusal};

/// The least and greatest x, y and z, and how many legs took part.
#[derive(Clone, Copy, PartialEq, Eq, Debug)]
pub enum Reach {
    Reached { least: [i32; 3], greatest: [i32; 3], legs: usize },
    Refused { number: u8, place: usize },
}

/// Answers "the least and greatest x, y and z over both ends of every leg" of
/// the survey `name` in `sheet`, of version 1 or 2.
///
/// Refusals come as "12 as for writing, then 21, place 0, when no leg takes
/// part".
pub fn reach(sheet: &[u8], name: &[u8]) -> Reach {
    match reached(sheet, name) {
        Ok(reach) => reach,
        Err(Refusal { number, place }) => Reach::Refused { number: number as u8, place },
    }
}

fn reached(sheet: &[u8], name: &[u8]) -> Result<Reach, Refusal> {
    let (mut least, mut greatest, mut legs) = ([i32::MAX; 3], [i32::MIN; 3], 0);
    sheet::all(sheet, |_, record| match *record {
        Record::Leg { from, to, label, .. } if takes_part(label, name) => {
            for end in [sheet::point(from), sheet::point(to)] {
                for axis in 0..3 {
                    least[axis] = least[axis].min(end[axis]);
                    greatest[axis] = greatest[axis].max(end[axis]);
                }
            }
            legs += 1;
        }
        _ => {}
    })?;
    if legs == 0 {
        return Err(no(21, 0));
    }
    Ok(Reach::Reached { least, greatest, legs })
}

/// "whose label is that name, or begins with it and then a dot. The empty name
/// takes all legs."
#[inline]
fn takes_part(label: &[u8], name: &[u8]) -> bool {
    match label.strip_prefix(name) {
        Some(after) => name.is_empty() || matches!(after.first(), None | Some(b'.')),
        None => false,
    }
}

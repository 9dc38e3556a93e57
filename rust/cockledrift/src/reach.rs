//! How far a survey reaches.

#![forbid(unsafe_code)]

use crate::answer::byte;
use crate::library::{self, ReachNumbers};
use crate::Refusal;

/// How far the legs of a survey reach: x, y and z in centimetres.
#[derive(Clone, Copy, PartialEq, Eq, Hash, Debug)]
pub struct Reach {
    /// The least x, y and z of an end of these legs.
    pub least: [i32; 3],
    /// The greatest x, y and z of an end of these legs.
    pub greatest: [i32; 3],
    /// How many legs took part: at least one.
    pub legs: usize,
}

/// How far a survey of a sheet reaches: the least and greatest x, y and z over
/// both ends of every leg whose label is the name, or begins with it and then a
/// dot. The empty name takes all legs.
///
/// A sheet that breaks the layout is refused as for writing (12), and a name that
/// no leg has with 21.
///
/// ```
/// # fn main() -> Result<(), cockledrift::Refusal> {
/// let file = b"Survex 3D Image File\nv8\nA\n@0\n\0\x0f\
///     \x01\0\0\0\x02\0\0\0\x03\0\0\0\x40\x03a.b\xff\xff\xff\xff\x05\0\0\0\x03\0\0\0\0\0";
/// let sheet = cockledrift::read_vec(file)?;
/// let reach = cockledrift::reach(&sheet, b"a")?;
/// assert_eq!((reach.least, reach.greatest, reach.legs), ([-1, 2, 3], [1, 5, 3], 1));
/// assert_eq!(cockledrift::reach(&sheet, b"a.").unwrap_err().number, 21);
/// # Ok(())
/// # }
/// ```
pub fn reach(sheet: &[u8], name: &[u8]) -> Result<Reach, Refusal> {
    let ReachNumbers { number, place, legs, least, greatest } = library::reach(sheet, name);
    match byte(number) {
        0 => Ok(Reach { least, greatest, legs }),
        number => Err(Refusal { number, place }),
    }
}

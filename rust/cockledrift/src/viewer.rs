//! Legs for the viewer.

#![forbid(unsafe_code)]

use crate::answer::byte;
use crate::library::{self, ViewNumbers};
use crate::Refusal;

/// How many numbers a leg has: from x y z, then to x y z.
pub const NUMBERS_EACH: usize = 6;

/// Writes each leg of a sheet to the front of `out`, in sheet order, and answers
/// how many they are: [`NUMBERS_EACH`] numbers a leg, from x y z, then to x y z, in
/// centimetres less the origin. Each is exactly that number, zero plus zero, and
/// the numbers past the last leg's stay.
///
/// A sheet that breaks the layout is refused as for writing (12), then a number
/// over 16,777,216 or below minus it with 20 and the record number of the first
/// leg that has one, then too short a buffer with 11 and the count of numbers
/// needed. A refusal leaves `out` as it was.
///
/// ```
/// # fn main() -> Result<(), cockledrift::Refusal> {
/// let file = b"Survex 3D Image File\nv8\nA\n@0\n\0\x0f\
///     \x01\0\0\0\x02\0\0\0\x03\0\0\0\x40\x03a.b\xff\xff\xff\xff\x05\0\0\0\x03\0\0\0\0\0";
/// let sheet = cockledrift::read_vec(file)?;
/// let mut out = [9.0; 7];
/// assert_eq!(cockledrift::viewer_legs(&sheet, [1, 0, 3], &mut out)?, 1);
/// assert_eq!(out, [0.0, 2.0, 0.0, -2.0, 5.0, 0.0, 9.0]);
/// let far = cockledrift::viewer_legs(&sheet, [i32::MIN, 0, 0], &mut out).unwrap_err();
/// assert_eq!((far.number, far.place), (20, 0));
/// # Ok(())
/// # }
/// ```
pub fn viewer_legs(sheet: &[u8], origin: [i32; 3], out: &mut [f32]) -> Result<usize, Refusal> {
    let ViewNumbers { number, place, legs } = library::viewer_legs(sheet, origin, out);
    match byte(number) {
        0 => Ok(legs),
        number => Err(Refusal { number, place }),
    }
}

/// The numbers of all legs of a sheet, as [`viewer_legs`] writes them.
pub fn viewer_legs_vec(sheet: &[u8], origin: [i32; 3]) -> Result<Vec<f32>, Refusal> {
    let needed = match viewer_legs(sheet, origin, &mut []) {
        Ok(_) => 0,
        Err(refusal) => refusal.needed().ok_or(refusal)?,
    };
    let mut out = vec![0.0; needed];
    viewer_legs(sheet, origin, &mut out)?;
    Ok(out)
}

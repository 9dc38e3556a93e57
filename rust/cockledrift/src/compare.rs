//! Which of two files is later.

#![forbid(unsafe_code)]

use crate::answer::byte;
use crate::library::{self, ComparedNumbers};
use crate::Refusal;
use std::error::Error;
use std::fmt;

/// Which file is later, with its time line as that part of the file.
#[derive(Clone, Copy, PartialEq, Eq, Hash, Debug)]
pub enum Later<'f> {
    /// The first, with its time line.
    First(&'f [u8]),
    /// The second, with its time line.
    Second(&'f [u8]),
    /// Both have the same second.
    Same,
}

/// One of the two files of a comparison.
#[derive(Clone, Copy, PartialEq, Eq, Hash, Debug)]
pub enum Which {
    /// The first.
    First,
    /// The second.
    Second,
}

/// A refusal of one of two files: 16, 1, 2, 3, 4 or 17.
#[derive(Clone, Copy, PartialEq, Eq, Hash, Debug)]
pub struct RefusedFile {
    /// The file.
    pub file: Which,
    /// What is wrong with it.
    pub refusal: Refusal,
}

impl fmt::Display for RefusedFile {
    fn fmt(&self, to: &mut fmt::Formatter) -> fmt::Result {
        let file = match self.file {
            Which::First => "first",
            Which::Second => "second",
        };
        write!(to, "the {file} file: {}", self.refusal)
    }
}

impl Error for RefusedFile {}

/// Which of two files is later, by their time lines.
///
/// Only the headers are judged, the first file's first.
///
/// ```
/// use cockledrift::{compare, Later};
/// let old = b"Survex 3D Image File\nv7\nA\n@1016373666\n";
/// let new = b"Survex 3D Image File\nv3\nA\nSun,2002.03.17 14:01:07 GMT\n";
/// assert_eq!(compare(old, new)?, Later::Second(b"Sun,2002.03.17 14:01:07 GMT"));
/// assert_eq!(compare(old, old)?, Later::Same);
/// # Ok::<(), cockledrift::RefusedFile>(())
/// ```
pub fn compare<'f>(first: &'f [u8], second: &'f [u8]) -> Result<Later<'f>, RefusedFile> {
    match library::compare(first, second) {
        ComparedNumbers { which: 0, length: 0, .. } => Ok(Later::Same),
        ComparedNumbers { which: 1, place, length, .. } => {
            Ok(Later::First(&first[place..][..length]))
        }
        ComparedNumbers { which: 2, place, length, .. } => {
            Ok(Later::Second(&second[place..][..length]))
        }
        ComparedNumbers { which: 3, file: 1, number, place, length: 0 } => {
            Err(refused(Which::First, number, place))
        }
        ComparedNumbers { which: 3, file: 2, number, place, length: 0 } => {
            Err(refused(Which::Second, number, place))
        }
        other => unreachable!("the library tells no {other:?}"),
    }
}

fn refused(file: Which, number: u64, place: usize) -> RefusedFile {
    RefusedFile { file, refusal: Refusal { number: byte(number), place } }
}

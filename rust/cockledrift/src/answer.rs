//! What reading, writing, converting and editing answer.

#![forbid(unsafe_code)]

use crate::library::AnswerNumbers;
use std::error::Error;
use std::fmt;

include!(concat!(env!("OUT_DIR"), "/refusals.rs"));

/// What reading, writing, converting and editing answer.
pub type Answer = Result<Done, Refusal>;

/// What was done.
#[derive(Clone, Copy, PartialEq, Eq, Hash, Debug)]
pub struct Done {
    /// The bytes written to the front of the lent buffer.
    pub bytes: usize,
    /// The records of the sheet, its header left out.
    pub records: usize,
    /// The version of the file read, or of the file written.
    pub version: u8,
}

/// A refusal, by its number and place.
///
/// ```
/// let refusal = cockledrift::read(b"Survey", &mut []).unwrap_err();
/// assert_eq!((refusal.number, refusal.place), (1, 0));
/// assert_eq!(refusal.to_string(), "refused 1 at 0: no 3d file");
/// ```
#[derive(Clone, Copy, PartialEq, Eq, Hash, Debug)]
pub struct Refusal {
    /// What is wrong: one of [`number`], and `docs/FORMAT.md` has the table.
    pub number: u8,
    /// Where it applies. For most numbers that is a place in the file; 11 has
    /// the length needed, 12, 13 and 20 a record's number and 15 the record count.
    pub place: usize,
}

impl Refusal {
    /// The length that the lent buffer needs, where its being too small is the
    /// only thing that is wrong (11).
    ///
    /// ```
    /// let file = b"Survex 3D Image File\nv8\nA\n@0\n\0\0\0";
    /// let refusal = cockledrift::read(file, &mut []).unwrap_err();
    /// assert_eq!(refusal.needed(), Some(10));
    /// ```
    pub fn needed(&self) -> Option<usize> {
        (self.number == number::BUFFER_TOO_SMALL).then_some(self.place)
    }

    /// What the number says, in a few words: those of the header for C.
    ///
    /// ```
    /// let refusal = cockledrift::read(b"", &mut []).unwrap_err();
    /// assert_eq!(refusal.number, cockledrift::number::NO_3D_FILE);
    /// assert_eq!(refusal.reason(), "no 3d file");
    /// ```
    pub fn reason(&self) -> &'static str {
        words(self.number)
    }
}

impl fmt::Display for Refusal {
    fn fmt(&self, to: &mut fmt::Formatter) -> fmt::Result {
        write!(to, "refused {} at {}: {}", self.number, self.place, self.reason())
    }
}

impl Error for Refusal {}

/// A number of the interface that is a byte.
#[inline]
pub(crate) fn byte(number: u64) -> u8 {
    u8::try_from(number).expect("the library tells no number over 255")
}

/// The answer that these numbers tell.
pub(crate) fn told(numbers: AnswerNumbers) -> Answer {
    let AnswerNumbers { number, bytes, records, version } = numbers;
    match byte(number) {
        0 => Ok(Done { bytes, records, version: byte(version) }),
        number => Err(Refusal { number, place: bytes }),
    }
}

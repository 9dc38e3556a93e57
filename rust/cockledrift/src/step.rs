//! Stepping through a file, one item at a time.

#![forbid(unsafe_code)]

use crate::answer::byte;
use crate::library::{self, Label, OpenNumbers, Stand, StepNumbers, LABEL_LIMIT, STAND_NUMBERS};
use crate::record::SheetVersion;
use crate::{Record, Refusal};

/// What opening answers: the version of the file, and the place of its first
/// item.
#[derive(Clone, Copy, PartialEq, Eq, Hash, Debug)]
pub struct Opened {
    /// The version, 3 to 8.
    pub version: u8,
    /// The first item's place.
    pub place: usize,
}

/// A record that a step wrote to the front of the lent buffer.
#[derive(Clone, Copy, PartialEq, Eq, Hash, Debug)]
pub struct Found {
    /// Its bytes, with the two length bytes.
    pub bytes: usize,
    /// How many bytes of the label stayed since the last item that carried one;
    /// 0 for a traverse error.
    pub kept: usize,
}

impl Found {
    /// The record in the buffer that was lent to the step.
    ///
    /// # Panics
    ///
    /// In another buffer, where no record stands at the front.
    pub fn record<'o>(&self, out: &'o [u8]) -> Record<'o> {
        Record::of(&out[2..self.bytes], SheetVersion::Two).expect("the buffer of the step")
    }
}

/// What one step came to.
#[derive(Clone, Copy, PartialEq, Eq, Hash, Debug)]
pub enum Step {
    /// An item that makes a record.
    Record(Found),
    /// An item that makes none.
    Nothing,
    /// The end of the file, again and again.
    End,
}

/// A step reader: the file that it was given, and where it stands in it.
///
/// ```
/// use cockledrift::{Reader, RECORD_LIMIT};
///
/// let file = b"Survex 3D Image File\nv8\nA\n@0\n\0\x84\x01a\0\0\0\0\0\0\0\0\0\0\0\0\0\0";
/// let (mut reader, opened) = Reader::open(file);
/// assert_eq!(opened?.place, 30);
/// let mut out = [0; RECORD_LIMIT];
/// let found = reader.next(&mut out)?.expect("a station");
/// assert_eq!((found.bytes, found.kept), (17, 0));
/// assert_eq!(found.record(&out).label(), b"a");
/// assert_eq!(reader.next(&mut out)?, None);
/// # Ok::<(), cockledrift::Refusal>(())
/// ```
#[derive(Clone)]
pub struct Reader<'f> {
    file: &'f [u8],
    stand: Stand,
    label: Label,
}

/// A lent buffer of so many bytes has room for every record.
pub const RECORD_LIMIT: usize = 34 + LABEL_LIMIT;

impl<'f> Reader<'f> {
    /// A reader of the file before its first item, and what opening answers.
    /// After a refused opening every step answers that refusal.
    pub fn open(file: &'f [u8]) -> (Reader<'f>, Result<Opened, Refusal>) {
        let mut reader = Reader::with(file, [0; STAND_NUMBERS], [0; LABEL_LIMIT]);
        let opened = opened(library::open(file, &mut reader.stand));
        (reader, opened)
    }

    /// A reader that stands wherever these numbers and bytes say. Any of them
    /// are safe.
    pub fn with(file: &'f [u8], stand: Stand, label: Label) -> Reader<'f> {
        Reader { file, stand, label }
    }

    /// Where it stands, in numbers, and the label's buffer.
    pub fn stand(&self) -> (&Stand, &Label) {
        (&self.stand, &self.label)
    }

    /// One step, over exactly one item: its record, where it makes one, goes to
    /// the front of `out`. With too little room for it the refusal is 11 and
    /// the reader stays where it was. After the end or another refusal every
    /// step says so again.
    #[inline]
    pub fn step(&mut self, out: &mut [u8]) -> Result<Step, Refusal> {
        stepped(library::step(self.file, &mut self.stand, &mut self.label, out))
    }

    /// Steps on to the next record, or to the end, where there is none.
    #[inline]
    pub fn next(&mut self, out: &mut [u8]) -> Result<Option<Found>, Refusal> {
        match stepped(library::next(self.file, &mut self.stand, &mut self.label, out))? {
            Step::Record(found) => Ok(Some(found)),
            Step::End => Ok(None),
            Step::Nothing => unreachable!("the library goes on until something is answered"),
        }
    }
}

fn opened(numbers: OpenNumbers) -> Result<Opened, Refusal> {
    let OpenNumbers { number, place, version } = numbers;
    match byte(number) {
        0 => Ok(Opened { version: byte(version), place }),
        number => Err(Refusal { number, place }),
    }
}

#[inline]
fn stepped(numbers: StepNumbers) -> Result<Step, Refusal> {
    let StepNumbers { what, bytes, kept, number } = numbers;
    match what {
        1 => Ok(Step::Record(Found { bytes, kept })),
        2 => Ok(Step::Nothing),
        3 => Ok(Step::End),
        4 => Err(Refusal { number: byte(number), place: bytes }),
        _ => unreachable!("no step has the number {what}"),
    }
}

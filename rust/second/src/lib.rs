//! Survex 3d files, v3 to v8: reading to a sheet, strictly or not, salvaging,
//! stepping, writing v8 and v7, editing v8 and comparing time lines; how far a
//! sheet's surveys reach, and its legs for the viewer, and where its entrances are.
//!
//! An independent second implementation of document 01 and of requests #101,
//! #102, #104, #106 to #111 and #113 of document 02, written from these
//! documents and the two published format pages. It allocates only in `edit`, for the index
//! of `read_strict`, and in making and updating a summary.

mod codes;
mod edit;
mod header;
mod item;
mod later;
mod reach;
mod read;
mod record;
mod salvage;
mod sheet;
mod state;
mod step;
mod strict;
mod summary;
mod v7;
mod v8;
mod viewer;
mod write;

pub use edit::edit;
pub use later::{compare, seconds, Later};
pub use reach::{reach, Reach};
pub use read::read;
pub use salvage::{salvage, Salvaged};
pub use step::{open, Opened, Step, Stepper};
pub use strict::read_strict;
pub use summary::{entrances, summarize, update_summary, Entrances, Summary};
pub use viewer::{viewer_legs, Viewed};
pub use write::{write, write_v7};

use write::write_made;

/// "file read or written over 16,777,216 bytes"
pub(crate) const LONGEST_FILE: usize = 16_777_216;
pub(crate) const LONGEST_LABEL: usize = 4096;
pub(crate) const LONGEST_TITLE: usize = 4096;
pub(crate) const LONGEST_TIME: usize = 64;

/// The style before any style code: "not said".
pub(crate) const NOT_SAID: u8 = 5;
pub(crate) const NORMAL: u8 = 0;

/// The answer of reading, writing, converting and editing.
///
/// `Done` counts the bytes written to the lent buffer and the records (the
/// header left out), and names the version of the file read or written.
#[derive(Clone, Copy, PartialEq, Eq, Debug)]
pub enum Answer {
    Done { bytes: usize, records: usize, version: u8 },
    Refused { number: u8, place: usize },
}

/// A number from "Numbers for no". Inside it takes a whole word: a single byte
/// would share a word with parts of an item and slow the reader down.
pub(crate) type Number = usize;

/// A number, with its place.
#[derive(Clone, Copy, PartialEq, Eq, Debug)]
pub(crate) struct Refusal {
    pub number: Number,
    pub place: usize,
}

/// Shorthand, since a refusal is given in many places.
pub(crate) fn no(number: Number, place: usize) -> Refusal {
    Refusal { number, place }
}

impl From<Refusal> for Answer {
    fn from(Refusal { number, place }: Refusal) -> Answer {
        Answer::Refused { number: number as u8, place }
    }
}

/// Copies 4-byte numbers, turning little-endian to big-endian or back.
#[inline]
pub(crate) fn turn<const N: usize>(numbers: &[u8; N], turned: &mut [u8; N]) {
    for (to, from) in turned.as_chunks_mut::<4>().0.iter_mut().zip(numbers.as_chunks::<4>().0) {
        *to = u32::from_le_bytes(*from).to_be_bytes();
    }
}

/// Reads `file` (v3 to v8) to the lent `sheet`, then writes it as v8 to `out`.
///
/// It gives the reader's refusals, "then 16 and 11". After one of the reader's
/// both buffers are untouched; "after a writer's refusal the sheet stands and
/// the file buffer is untouched".
pub fn convert(file: &[u8], sheet: &mut [u8], out: &mut [u8]) -> Answer {
    match read(file, sheet) {
        Answer::Done { bytes, .. } => write_made(&sheet[..bytes], out),
        refused => refused,
    }
}

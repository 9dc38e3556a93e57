//! Survex 3d files (cave surveys), versions 3 to 8, through a library in which
//! every function is proved to meet its contract.
//!
//! A 3d file is read into a *sheet*, a list of records in bytes, and of a damaged
//! one what can be saved; a sheet is written as a v8 file, or as a v7 file for older
//! programs; a v8 file that was written here can be edited without its sheet; two
//! files are compared by their time lines; a [`Reader`] goes through a file item by
//! item; [`reach`] says how far a survey of a sheet reaches, [`viewer_legs`] gives its
//! legs as numbers for a viewer, a [`Summary`] how many
//! entrances a stretch of its records holds, and [`sha256`] tells a file's digest.
//! What the bytes
//! of files and sheets mean, and what each refusal says, is in
//! `docs/FORMAT.md`.
//!
//! [`Sheet`] and [`Record`] have these as values:
//!
//! ```
//! use cockledrift::{Record, Sheet};
//!
//! let file = std::fs::read("../testdata/passage.v8.3d")?;
//! let sheet = Sheet::read(&file)?;
//! assert_eq!(sheet.header().title, b"Passage sizes and styles");
//! let legs = sheet.records().filter(|record| matches!(record, Record::Leg(_)));
//! assert_eq!(legs.count(), 11);
//! # Ok::<(), Box<dyn std::error::Error>>(())
//! ```
//!
//! Every function takes lent slices and allocates nothing, but for those that
//! end in `_vec` and those of `Sheet`. No input makes one panic or go on for
//! ever: bad bytes get a [`Refusal`], which has a number and a place.
//!
//! ```
//! # fn main() -> Result<(), cockledrift::Refusal> {
//! let file = b"Survex 3D Image File\nv8\nA\n@0\n\0\0\0";
//! let mut sheet = [0; 100];
//! let done = cockledrift::read(file, &mut sheet)?;
//! assert_eq!((done.bytes, done.records, done.version), (10, 0, 8));
//! assert_eq!(sheet[..done.bytes], *b"\x02\0\x07\0\0\0\x01A@0");
//! assert_eq!(cockledrift::write_vec(&sheet[..done.bytes])?, file);
//! # Ok(())
//! # }
//! ```
//!
//! # Threads
//!
//! The library keeps nothing between calls: any number of threads may call at
//! once, on the same file too.
//!
//! # Lent buffers
//!
//! A refusal leaves every lent buffer as it was; success writes from the front
//! and leaves the rest. Only [`convert`] has a third case, which it tells, and the
//! room for names that [`read_strict`] is lent always ends as zeros. To
//! learn how long a buffer has to be, lend an empty one: the refusal that comes
//! back has [`Refusal::needed`].

#![deny(missing_docs, unsafe_code)]
#![forbid(improper_ctypes, unsafe_op_in_unsafe_fn, unused_must_use)]

mod answer;
mod compare;
mod convert;
mod edit;
#[cfg(test)]
mod layout;
mod library;
mod line;
mod reach;
mod read;
mod record;
mod room;
mod salvage;
mod sha256;
mod sheet;
mod step;
mod strict;
mod summary;
mod viewer;
mod write;

pub use answer::{number, Answer, Done, Refusal};
pub use compare::{compare, Later, RefusedFile, Which};
pub use convert::convert;
pub use edit::{edit, edit_vec};
pub use line::text;
pub use reach::{reach, Reach};
pub use read::{read, read_vec};
pub use record::{Date, Leg, Point, Record, Records, Section, Station, Traverse};
pub use salvage::{salvage, salvage_vec, Saved};
pub use sha256::{sha256, Sha256};
pub use sheet::{Header, Sheet};
pub use step::{Found, Opened, Reader, Step, RECORD_LIMIT};
pub use strict::{names_room, read_strict, read_strict_vec};
pub use summary::{entrances, summarize, summary_words, update_summary, Entrances, Summary};
pub use viewer::{viewer_legs, viewer_legs_vec, NUMBERS_EACH};
pub use write::{write, write_v7, write_v7_vec, write_vec};

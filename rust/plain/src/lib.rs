//! A Survex 3d file, v3 to v8, read to a sheet by ordinary Rust in two passes, as
//! fast as we know how without `unsafe` and without allocation (#112). The proved
//! reader is measured against it; nothing else uses it.
//!
//! The first pass judges the file and measures its sheet, the second lays the sheet.
//! Both are one loop (`walk`) over one of two sinks (`Size` and `Sheet`). An item with
//! at least `WINDOW` bytes before it in the file, whose label changes by at most 15
//! bytes, is taken from a window of fixed length, in which no bound needs a test; any
//! other goes the general way (`item`).

#![forbid(unsafe_code)]

mod header;
mod item;
mod label;
mod sha256;
mod sheet;
mod walk;

pub use sha256::sha256;

use header::Header;
use sheet::{Sheet, Size};

/// Done: the bytes of the sheet, its records but for the header, and the file's version.
#[derive(Clone, Copy, PartialEq, Eq, Debug)]
pub enum Answer {
    Done { bytes: usize, records: usize, version: u8 },
    Refused { number: u8, place: usize },
}

/// A refusal's number and its place.
pub(crate) type Refusal = (u8, usize);

/// Reads `file` to the front of `sheet`; a refusal leaves `sheet` as it was.
pub fn read(file: &[u8], sheet: &mut [u8]) -> Answer {
    match passes(file, sheet) {
        Ok(answer) => answer,
        Err((number, place)) => Answer::Refused { number, place },
    }
}

fn passes(file: &[u8], sheet: &mut [u8]) -> Result<Answer, Refusal> {
    let header = header::read(file)?;
    // v8 and the older versions have loops of their own.
    if header.version == 8 {
        both::<true>(file, &header, sheet)
    } else {
        both::<false>(file, &header, sheet)
    }
}

fn both<const V8: bool>(file: &[u8], header: &Header, sheet: &mut [u8]) -> Result<Answer, Refusal> {
    let size = walk::walk::<V8, _>(file, header, Size::default())?;
    let bytes = header.size() + size.bytes;
    let Some(sheet) = sheet.get_mut(..bytes) else { return Err((11, bytes)) };
    let (front, records) = sheet.split_at_mut(header.size());
    header.lay(front);
    walk::walk::<V8, _>(file, header, Sheet { out: records })?;
    Ok(Answer::Done { bytes, records: size.records, version: header.version })
}

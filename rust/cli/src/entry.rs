//! What a catalogue says of a file.

use crate::disk::{self, READ_LIMIT};
use crate::text::hex;
use crate::{file, time};
use cockledrift::{Refusal, Sha256};
use std::fs::File;
use std::io::{self, Read};
use std::path::Path;

/// A file of an archive.
pub struct Entry {
    pub digest: String,
    pub bytes: u64,
    pub second: Option<u32>,
    /// Title and time line, where the header reads.
    pub title: Option<Vec<u8>>,
    pub line: Option<Vec<u8>>,
    pub version: Option<u8>,
    /// The records, or why it does not read.
    pub records: Result<usize, Refusal>,
}

/// The SHA-256 of a file, its length, and its bytes up to the limit.
pub fn digest(path: &Path) -> io::Result<(String, u64, Vec<u8>)> {
    disk::steady(&mut File::open(path)?, digested)
}

fn digested(from: &mut File) -> io::Result<(String, u64, Vec<u8>)> {
    let mut running = Sha256::start();
    let (mut part, mut front, mut length) = (vec![0; 1 << 16], Vec::new(), 0);
    loop {
        match from.read(&mut part) {
            Ok(0) => return Ok((hex(&running.finish()), length, front)),
            Ok(read) => {
                running.update(&part[..read]);
                length += read as u64;
                let room = (READ_LIMIT as usize - front.len()).min(read);
                front.extend(&part[..room]);
            }
            Err(error) if error.kind() == io::ErrorKind::Interrupted => {}
            Err(error) => return Err(error),
        }
    }
}

impl Entry {
    pub fn of(path: &Path) -> io::Result<Entry> {
        let (digest, bytes, front) = digest(path)?;
        let judged = file::judge(&front);
        let opened = cockledrift::Reader::open(&front).1.ok();
        let header = opened.as_ref().and_then(|opened| file::header(&front, opened).ok());
        Ok(Entry {
            digest,
            bytes,
            second: time::second(&front).ok(),
            title: header.as_ref().map(|sheet| sheet.header().title.into()),
            line: header.as_ref().map(|sheet| sheet.header().time.into()),
            version: opened.map(|opened| opened.version),
            records: judged.and_then(|_| file::count(&front)),
        })
    }
}

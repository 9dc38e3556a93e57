//! A sheet that holds its bytes.

#![forbid(unsafe_code)]

use crate::answer::number;
use crate::record::{first, SheetVersion};
use crate::{read_vec, write, write_v7_vec, write_vec, Records, Refusal};
use crate::{salvage, salvage_vec, Saved};

/// A survey as a list of records, in bytes that keep the layout of a sheet.
///
/// ```
/// use cockledrift::{edit_vec, Record, Sheet};
///
/// let file = std::fs::read("../testdata/loops.v6.3d")?;
/// let sheet = Sheet::read(&file)?;
/// assert_eq!(sheet.header().title, b"Loops");
/// assert!(sheet.records().any(|record| matches!(record, Record::Traverse(_))));
/// let new = sheet.write()?;
/// let first = edit_vec(&new, 1, sheet.records().count() - 1, b"")?;
/// assert_eq!(Sheet::read(&first)?.records().next(), sheet.records().next());
/// # Ok::<(), Box<dyn std::error::Error>>(())
/// ```
#[derive(Clone, PartialEq, Eq, Hash, Debug)]
pub struct Sheet {
    bytes: Vec<u8>,
}

/// The header of a sheet.
#[derive(Clone, Copy, PartialEq, Eq, Hash, Debug)]
pub struct Header<'s> {
    /// Whether the file has an extended elevation.
    pub extended: bool,
    /// The title.
    pub title: &'s [u8],
    /// The time line.
    pub time: &'s [u8],
}

impl Sheet {
    /// The sheet of a file, v3 to v8: of version 2.
    ///
    /// A file of 16 MiB can ask for a sheet of several GiB:
    /// [`read`](crate::read) takes a buffer of any length.
    pub fn read(file: &[u8]) -> Result<Sheet, Refusal> {
        read_vec(file).map(|bytes| Sheet { bytes })
    }

    /// The sheet of what can be saved of a file, and the report.
    ///
    /// ```
    /// let file = b"Survex 3D Image File\nv8\nA\n@0\n\0\x07";
    /// let (sheet, saved) = cockledrift::Sheet::salvage(file)?;
    /// assert_eq!((sheet.records().count(), saved.place, saved.left), (0, 30, 1));
    /// # Ok::<(), cockledrift::Refusal>(())
    /// ```
    pub fn salvage(file: &[u8]) -> Result<(Sheet, Saved), Refusal> {
        let mut bytes = salvage_vec(file)?;
        let saved = salvage(file, &mut bytes)?;
        Ok((Sheet { bytes }, saved))
    }

    /// The sheet in these bytes, of version 1 or 2, where they keep the layout:
    /// else 12.
    ///
    /// ```
    /// use cockledrift::Sheet;
    /// let sheet = Sheet::of(b"\x01\0\x07\0\0\0\x01A@0".to_vec())?;
    /// assert_eq!(sheet.header().time, b"@0");
    /// assert_eq!(Sheet::of(b"\x01\0\x07".to_vec()).unwrap_err().number, 12);
    /// # Ok::<(), cockledrift::Refusal>(())
    /// ```
    pub fn of(bytes: Vec<u8>) -> Result<Sheet, Refusal> {
        match write(&bytes, &mut []) {
            Err(refusal) if refusal.number == number::BAD_SHEET => Err(refusal),
            _ => Ok(Sheet { bytes }),
        }
    }

    /// Its bytes.
    pub fn bytes(&self) -> &[u8] {
        &self.bytes
    }

    /// Its bytes, handed over.
    pub fn into_bytes(self) -> Vec<u8> {
        self.bytes
    }

    /// Its header.
    pub fn header(&self) -> Header<'_> {
        let (header, _) = self.parts();
        let (title, time) = header[4..].split_at(u16::from_be_bytes([header[2], header[3]]).into());
        Header { extended: header[1] != 0, title, time }
    }

    /// Its records, in order.
    pub fn records(&self) -> Records<'_> {
        let version = if self.bytes[0] == 1 { SheetVersion::One } else { SheetVersion::Two };
        Records::new(self.parts().1, version)
    }

    /// The v8 file of this sheet, or 13 or 16.
    pub fn write(&self) -> Result<Vec<u8>, Refusal> {
        write_vec(&self.bytes)
    }

    /// The v7 file of this sheet, or 23 or 16.
    pub fn write_v7(&self) -> Result<Vec<u8>, Refusal> {
        write_v7_vec(&self.bytes)
    }

    /// The bytes of the header, and those of the records behind it.
    fn parts(&self) -> (&[u8], &[u8]) {
        first(&self.bytes[1..]).expect("a sheet has a header")
    }
}

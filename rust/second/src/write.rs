//! Writing a sheet as a v8 or v7 file, in two passes: the first judges the
//! sheet and measures the file, the second writes it.

use crate::codes::{Codes, Sink, Version};
use crate::header::FILE_ID;
use crate::sheet::{self, SheetHeader};
use crate::v7::V7;
use crate::v8::V8;
use crate::{no, Answer, Refusal, LONGEST_FILE};

/// Writes `sheet`, of version 1 or 2, as a v8 file to the front of `file`.
///
/// Refusals come as "12 (first bad record), 13, 16, 11" and leave `file`
/// untouched.
pub fn write(sheet: &[u8], file: &mut [u8]) -> Answer {
    write_judged::<V8>(sheet, file).unwrap_or_else(Answer::from)
}

/// Writes `sheet`, of version 1 or 2, as a v7 file to the front of `file`.
///
/// Refusals come as "12, then 23 at the first record v7 can't carry [...],
/// then 16, 11" and leave `file` untouched.
pub fn write_v7(sheet: &[u8], file: &mut [u8]) -> Answer {
    write_judged::<V7>(sheet, file).unwrap_or_else(Answer::from)
}

/// Writes a sheet that reading made as a v8 file to the front of `file`. Only
/// 16 and 11 are left: such a sheet "is never refused with 12 or 13".
pub(crate) fn write_made(sheet: &[u8], file: &mut [u8]) -> Answer {
    match measure::<V8>(sheet) {
        Ok(measured) => write_measured::<V8>(sheet, measured, file).unwrap_or_else(Answer::from),
        Err(refusal) => unreachable!("a sheet made by reading is refused: {refusal:?}"),
    }
}

fn write_judged<V: Version>(sheet: &[u8], file: &mut [u8]) -> Result<Answer, Refusal> {
    write_measured::<V>(sheet, measure::<V>(sheet)?, file)
}

fn write_measured<V: Version>(
    sheet: &[u8],
    (bytes, records): (usize, usize),
    file: &mut [u8],
) -> Result<Answer, Refusal> {
    if bytes > LONGEST_FILE {
        return Err(no(16, 0));
    }
    if file.len() < bytes {
        return Err(no(11, bytes));
    }
    fill::<V>(sheet, &mut file[..bytes]);
    Ok(Answer::Done { bytes, records, version: V::NUMBER })
}

/// The first pass: the file's bytes and records, or 12, or 13 or 23.
fn measure<V: Version>(sheet: &[u8]) -> Result<(usize, usize), Refusal> {
    let (head, rest) = sheet::header(sheet).ok_or(no(12, 0))?;
    let mut count = Count(0);
    let mut codes = Codes::<V>::new();
    // Any 12 goes before what can't be carried, so that is only kept in mind.
    let mut lost = V::loses_header(&head).then_some(no(V::LOSS, 0));
    put_header::<V>(&head, &mut count);
    let records = sheet::each(head.layout, rest, |number, record| {
        if lost.is_none() && codes.loses(record) {
            lost = Some(no(V::LOSS, number));
        }
        codes.put(record, &mut count);
    })?;
    codes.close(&mut count);
    match lost {
        Some(refusal) => Err(refusal),
        None => Ok((count.0, records)),
    }
}

/// The second pass, into a part that fits exactly.
fn fill<V: Version>(sheet: &[u8], part: &mut [u8]) {
    let mut file = Fill { part, at: 0 };
    let mut codes = Codes::<V>::new();
    let Some((head, rest)) = sheet::header(sheet) else { return };
    put_header::<V>(&head, &mut file);
    let filled = sheet::each(head.layout, rest, |_, record| codes.put(record, &mut file));
    debug_assert!(filled.is_ok(), "the first pass judged this sheet");
    codes.close(&mut file);
}

struct Count(usize);

impl Sink for Count {
    #[inline]
    fn put(&mut self, bytes: &[u8]) {
        self.0 += bytes.len();
    }
}

struct Fill<'a> {
    part: &'a mut [u8],
    at: usize,
}

impl Sink for Fill<'_> {
    #[inline]
    fn put(&mut self, bytes: &[u8]) {
        let end = self.at + bytes.len();
        self.part[self.at..end].copy_from_slice(bytes);
        self.at = end;
    }
}

fn put_header<V: Version>(head: &SheetHeader, sink: &mut impl Sink) {
    sink.put(FILE_ID);
    sink.put(&[b'v', b'0' + V::NUMBER, b'\n']);
    sink.put(head.title);
    sink.put(b"\n");
    sink.put(head.time);
    sink.put(b"\n");
    if V::NUMBER == 8 {
        sink.put(&[if head.extended { 0x80 } else { 0x00 }]);
    }
}

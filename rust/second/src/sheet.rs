//! The sheet's layout: its header and records taken apart and judged.

use crate::state::{Date, UNDATED};
use crate::{no, Refusal, LONGEST_LABEL, LONGEST_TIME, LONGEST_TITLE, NOT_SAID};

/// The two sheet versions. They differ in their section records alone.
#[derive(Clone, Copy)]
pub(crate) enum Layout {
    Version1 = 1,
    Version2 = 2,
}

impl Layout {
    fn of(byte: u8) -> Option<Layout> {
        match byte {
            1 => Some(Layout::Version1),
            2 => Some(Layout::Version2),
            _ => None,
        }
    }
}

pub(crate) struct SheetHeader<'a> {
    /// How the sheet's records are to be judged.
    pub layout: Layout,
    pub extended: bool,
    pub title: &'a [u8],
    pub time: &'a [u8],
}

/// A well-formed record; numbers are big-endian, as the sheet has them.
#[derive(Clone, Copy)]
pub(crate) enum Record<'a> {
    Leg { flags: u8, style: u8, date: Date, from: &'a [u8; 12], to: &'a [u8; 12], label: &'a [u8] },
    Station { flags: u8, at: &'a [u8; 12], label: &'a [u8] },
    Section { last: u8, date: Date, sides: &'a [u8; 16], label: &'a [u8] },
    Error(&'a [u8; 20]),
}

/// The header and what follows it, or nothing if the version byte or the
/// header breaks the layout.
pub(crate) fn header(sheet: &[u8]) -> Option<(SheetHeader<'_>, &[u8])> {
    let (&version_byte, rest) = sheet.split_first()?;
    let layout = Layout::of(version_byte)?;
    let (body, rest) = body(rest)?;
    let (&[kind, extended, high, low], text) = body.split_first_chunk()?;
    let length = u16::from_be_bytes([high, low]);
    let (title, time) = text.split_at_checked(usize::from(length))?;
    let good =
        kind == 0 && extended <= 1 && is_line(title, LONGEST_TITLE) && is_line(time, LONGEST_TIME);
    good.then_some((SheetHeader { layout, extended: extended == 1, title, time }, rest))
}

/// "Title and time line keep the header's rules and hold no linefeed."
fn is_line(text: &[u8], longest: usize) -> bool {
    text.len() <= longest && text.last() != Some(&b'\r') && !text.contains(&b'\n')
}

/// "a big-endian u16 length, then that many bytes"
#[inline(always)]
fn body(rest: &[u8]) -> Option<(&[u8], &[u8])> {
    let (length, rest) = rest.split_first_chunk()?;
    rest.split_at_checked(usize::from(u16::from_be_bytes(*length)))
}

/// Shows each record with its number and answers their count, or 12 for the
/// first that is not well-formed.
#[inline(always)]
pub(crate) fn each<'a>(
    layout: Layout,
    mut rest: &'a [u8],
    mut show: impl FnMut(usize, &Record<'a>),
) -> Result<usize, Refusal> {
    let mut number = 0;
    while !rest.is_empty() {
        let (record, after) = record(layout, rest).ok_or(no(12, number))?;
        show(number, &record);
        number += 1;
        rest = after;
    }
    Ok(number)
}

/// Shows each record of a whole sheet, or gives 12 "as for writing".
#[inline(always)]
pub(crate) fn all<'a>(
    sheet: &'a [u8],
    show: impl FnMut(usize, &Record<'a>),
) -> Result<usize, Refusal> {
    let (head, rest) = header(sheet).ok_or(no(12, 0))?;
    each(head.layout, rest, show)
}

/// A position's x, y and z.
#[inline(always)]
pub(crate) fn point(bytes: &[u8; 12]) -> [i32; 3] {
    let numbers = bytes.as_chunks::<4>().0;
    std::array::from_fn(|axis| i32::from_be_bytes(numbers[axis]))
}

/// Takes the first record, or nothing if it is not well-formed by the layout.
/// A header is none here: it stands "first and once".
#[inline(always)]
fn record(layout: Layout, rest: &[u8]) -> Option<(Record<'_>, &[u8])> {
    let (body, rest) = body(rest)?;
    let record = match *body.first()? {
        1 => leg(body)?,
        2 => station(body)?,
        3 => section(layout, body)?,
        4 => error(body)?,
        _ => return None,
    };
    Some((record, rest))
}

#[inline(always)]
fn leg(body: &[u8]) -> Option<Record<'_>> {
    let (&[_, flags, style, kind, a, b, c, d], rest) = body.split_first_chunk()?;
    let (from, rest) = rest.split_first_chunk()?;
    let (to, label) = rest.split_first_chunk()?;
    let date = [kind, a, b, c, d];
    let good = flags <= 0x07 && style <= NOT_SAID && is_date(date) && label.len() <= LONGEST_LABEL;
    good.then_some(Record::Leg { flags, style, date, from, to, label })
}

/// "Unused days are 0; a range has day < last day."
#[inline(always)]
fn is_date([kind, a, b, c, d]: Date) -> bool {
    let day = u16::from_be_bytes([a, b]);
    let last = u16::from_be_bytes([c, d]);
    match kind {
        0 => day == 0 && last == 0,
        1 => last == 0,
        2 => day < last,
        _ => false,
    }
}

#[inline(always)]
fn station(body: &[u8]) -> Option<Record<'_>> {
    let (&[_, flags], rest) = body.split_first_chunk()?;
    let (at, label) = rest.split_first_chunk()?;
    let good = flags <= 0x7f && label.len() <= LONGEST_LABEL;
    good.then_some(Record::Station { flags, at, label })
}

#[inline(always)]
fn section(layout: Layout, body: &[u8]) -> Option<Record<'_>> {
    let (&[_, last], rest) = body.split_first_chunk()?;
    let (date, rest) = section_date(layout, rest)?;
    let (sides, label) = rest.split_first_chunk()?;
    let good = last <= 1 && is_date(date) && label.len() <= LONGEST_LABEL;
    good.then_some(Record::Section { last, date, sides, label })
}

/// The date and what follows it: "a version 1 section having no date".
#[inline(always)]
fn section_date(layout: Layout, rest: &[u8]) -> Option<(Date, &[u8])> {
    match layout {
        Layout::Version1 => Some((UNDATED, rest)),
        Layout::Version2 => rest.split_first_chunk().map(|(&date, rest)| (date, rest)),
    }
}

#[inline(always)]
fn error(body: &[u8]) -> Option<Record<'_>> {
    let (_, five) = body.split_first()?;
    Some(Record::Error(five.try_into().ok()?))
}

//! Reading a file to a sheet, in two passes: the first judges everything and
//! measures the sheet, the second writes it.

use crate::header::{header, Header};
use crate::item::{next, Item};
use crate::record;
use crate::sheet::Layout;
use crate::state::State;
use crate::{no, Answer, Number, Refusal};

/// Reads `file` (v3 to v8) to the front of `sheet`, as a version 2 sheet.
///
/// Refusals come as "16, 1, 2, 3, the v8 byte, then items in order; in an item
/// 4, 5, 6, 7, 9, 8; then 10, then 11" and leave `sheet` untouched.
pub fn read(file: &[u8], sheet: &mut [u8]) -> Answer {
    answer(pass::<false>(file, sheet, Wanted::WholeFile, |_, _| Ok(())))
}

/// What reading answers after both passes.
pub(crate) fn answer(passed: Result<Passed, Refusal>) -> Answer {
    match passed {
        Ok(Passed { bytes, records, version, .. }) => Answer::Done { bytes, records, version },
        Err(refusal) => refusal.into(),
    }
}

/// Whether what the items refuse, 10 included, refuses the call, or only ends
/// the sheet.
#[derive(Clone, Copy, PartialEq, Eq)]
pub(crate) enum Wanted {
    WholeFile,
    RecordsBefore,
}

/// What both passes made of a file, and how its items ended.
pub(crate) struct Passed {
    pub bytes: usize,
    pub records: usize,
    pub version: u8,
    pub end: Result<(), Refusal>,
}

/// Both passes. In the first `judge` sees each item that nothing else refuses,
/// with the label it leaves, and may refuse it; its bytes only with `LABELS`.
#[inline(always)]
pub(crate) fn pass<'a, const LABELS: bool>(
    file: &'a [u8],
    sheet: &mut [u8],
    wanted: Wanted,
    judge: impl FnMut(&Item<'a>, &[u8]) -> Result<(), Number>,
) -> Result<Passed, Refusal> {
    let head = header(file)?;
    // v8 and the older versions have loops of their own. Only the older ones
    // look for dots, and so must know the label's bytes while measuring.
    if head.version == 8 {
        two_passes::<LABELS>(8, file, &head, sheet, wanted, judge)
    } else {
        two_passes::<true>(head.version, file, &head, sheet, wanted, judge)
    }
}

#[inline(always)]
fn two_passes<'a, const KEEP: bool>(
    version: u8,
    file: &'a [u8],
    head: &Header,
    sheet: &mut [u8],
    wanted: Wanted,
    judge: impl FnMut(&Item<'a>, &[u8]) -> Result<(), Number>,
) -> Result<Passed, Refusal> {
    let passed = measure::<KEEP>(version, file, head, judge);
    let Passed { bytes, end, .. } = passed;
    if wanted == Wanted::WholeFile {
        end?;
    }
    if sheet.len() < bytes {
        return Err(no(11, bytes));
    }
    let start = put_header(head, sheet);
    let filled = fill(version, file, head.items, &mut sheet[start..bytes]);
    debug_assert_eq!(filled, end, "both passes end alike");
    Ok(passed)
}

/// The first pass: the sheet's bytes and records.
#[inline(always)]
fn measure<'a, const KEEP: bool>(
    version: u8,
    file: &'a [u8],
    head: &Header,
    mut judge: impl FnMut(&Item<'a>, &[u8]) -> Result<(), Number>,
) -> Passed {
    let mut bytes = header_size(head);
    let mut records = 0;
    let end = walk::<KEEP>(version, file, head.items, |item, state| {
        judge(item, state.label())?;
        if let Some(size) = record::size(item, state.label().len()) {
            bytes += size;
            records += 1;
        }
        Ok(())
    });
    Passed { bytes, records, version, end }
}

/// The second pass, into a part that fits exactly.
#[inline(always)]
fn fill(version: u8, file: &[u8], items: usize, part: &mut [u8]) -> Result<(), Refusal> {
    let mut at = 0;
    walk::<true>(version, file, items, |item, state| {
        at += record::put(item, state, &mut part[at..]);
        Ok(())
    })
}

/// Goes through all items up to the end or the first refused one, the first at
/// `items`, and shows each with the state it finds, its own label already in
/// place. `each` may refuse it, after all that is refused here.
#[inline(always)]
fn walk<'a, const KEEP: bool>(
    version: u8,
    file: &'a [u8],
    items: usize,
    mut each: impl FnMut(&Item<'a>, &State<'a>) -> Result<(), Number>,
) -> Result<(), Refusal> {
    let mut state = State::new();
    let mut rest = &file[items..];
    loop {
        // With nothing left this is the file length, as "no end" wants it.
        let place = file.len() - rest.len();
        let (item, after) = next(version, rest).map_err(|number| no(number, place))?;
        rest = after;
        if state.ends(&item) {
            return nothing_after(file, rest);
        }
        let length = state.judge(&item).map_err(|number| no(number, place))?;
        state.relabel::<KEEP>(&item, length);
        each(&item, &state).map_err(|number| no(number, place))?;
        state.apply(&item);
    }
}

/// 10: "bytes after the end", at the "first of them".
pub(crate) fn nothing_after(file: &[u8], rest: &[u8]) -> Result<(), Refusal> {
    if rest.is_empty() {
        Ok(())
    } else {
        Err(no(10, file.len() - rest.len()))
    }
}

/// The version byte and the header record with its length bytes.
fn header_size(head: &Header) -> usize {
    1 + 2 + 4 + head.title.len() + head.time.len()
}

/// Writes the version byte and the header record, and answers their length.
fn put_header(head: &Header, sheet: &mut [u8]) -> usize {
    let size = header_size(head);
    let title_end = 7 + head.title.len();
    sheet[0] = Layout::Version2 as u8;
    // At most 4,164 and 4,096, so the casts keep them.
    sheet[1..3].copy_from_slice(&((size - 3) as u16).to_be_bytes());
    sheet[3] = 0;
    sheet[4] = u8::from(head.extended);
    sheet[5..7].copy_from_slice(&(head.title.len() as u16).to_be_bytes());
    sheet[7..title_end].copy_from_slice(head.title);
    sheet[title_end..size].copy_from_slice(head.time);
    size
}

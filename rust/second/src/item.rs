//! One item of a file, as its bytes say. What needs the state (the label, the
//! position) is judged elsewhere: here only 4 and 5 are given.

use crate::Number;

const RESERVED: Number = 4;
const UNFINISHED: Number = 5;

/// "A label is D bytes to drop, then A to append"; v3 to v7 never drop here.
#[derive(Clone, Copy)]
pub(crate) struct Change<'a> {
    pub drop: u32,
    pub add: &'a [u8],
}

/// An item: what it does to the label, mostly nothing, and what else it says.
#[derive(Clone, Copy)]
pub(crate) struct Item<'a> {
    pub change: Change<'a>,
    pub what: What<'a>,
}

#[derive(Clone, Copy)]
pub(crate) enum What<'a> {
    /// 00 in v3 to v7: "label empty: end; else empty it".
    Stop,
    /// 00-04 in v8.
    Style(u8),
    /// 01-0e in v3 to v7: back to the Nth dot.
    Dots(u8),
    /// 10-1f in v3 to v7: how many bytes to drop.
    Drop(u8),
    Move(&'a [u8; 12]),
    Undated,
    /// First and last day since 1900, not yet judged.
    Dated {
        first: u32,
        last: u32,
    },
    Error(&'a [u8; 20]),
    /// A cross-section with L R U D as i16.
    Narrow {
        last: u8,
        sides: &'a [u8; 8],
    },
    /// A cross-section with L R U D as i32.
    Wide {
        last: u8,
        sides: &'a [u8; 16],
    },
    Station {
        flags: u8,
        at: &'a [u8; 12],
    },
    Leg {
        flags: u8,
        to: &'a [u8; 12],
    },
}

/// Something read, and the bytes after it; or 4 or 5.
type Taken<'a, T> = Result<(T, &'a [u8]), Number>;

/// Takes one item from the front of `rest`.
#[inline(always)]
pub(crate) fn next(version: u8, rest: &[u8]) -> Taken<'_, Item<'_>> {
    let (&code, rest) = rest.split_first().ok_or(UNFINISHED)?;
    if version == 8 {
        item_v8(code, rest)
    } else {
        item_v3_to_v7(version, code, rest)
    }
}

#[inline(always)]
fn item_v8(code: u8, rest: &[u8]) -> Taken<'_, Item<'_>> {
    match code {
        0x80..=0xff => station(code & 0x7f, change_v8(rest)?),
        // 0x20: "no label bytes and no change"
        0x40..=0x7f if code & 0x38 == 0x20 => leg(code & 0x07, (KEEP_LABEL, rest)),
        0x40..=0x7f if code & 0x38 == 0x00 => leg(code & 0x07, change_v8(rest)?),
        0x0f => move_to(rest),
        0x00..=0x04 => plain(What::Style(code), rest),
        0x30..=0x33 => section(code, change_v8(rest)?),
        0x10 => plain(What::Undated, rest),
        0x11 => day(rest),
        0x12 => day_and_span(rest),
        0x13 => two_days(rest),
        0x1f => error(rest),
        _ => Err(RESERVED),
    }
}

#[inline(always)]
fn item_v3_to_v7(version: u8, code: u8, rest: &[u8]) -> Taken<'_, Item<'_>> {
    match code {
        0x00 => plain(What::Stop, rest),
        0x01..=0x0e => plain(What::Dots(code), rest),
        0x0f => move_to(rest),
        0x10..=0x1f => plain(What::Drop(code - 15), rest),
        0x20..=0x24 => date_or_error(version, code, rest),
        0x30..=0x33 if version >= 5 => section(code, change_v3_to_v7(rest)?),
        // LABEL flags are 0x1f, so 60-7f hold a reserved bit.
        0x40..=0x5f => station(code & 0x1f, change_v3_to_v7(rest)?),
        // LINE flags are 0x07, so 88-bf hold a reserved bit.
        0x80..=0x87 => leg(code & 0x07, change_v3_to_v7(rest)?),
        _ => Err(RESERVED),
    }
}

/// Codes 20 to 24, which no two of v3, v4-v5, v6 and v7 share in full.
fn date_or_error(version: u8, code: u8, rest: &[u8]) -> Taken<'_, Item<'_>> {
    match (code, version) {
        (0x20, 4..=6) => one_time(rest),
        (0x21, 4..=6) => two_times(rest),
        (0x20, 7) => day(rest),
        (0x21, 7) => day_and_span(rest),
        (0x22, 6..=7) => error(rest),
        (0x23, 7) => two_days(rest),
        (0x24, 7) => plain(What::Undated, rest),
        _ => Err(RESERVED),
    }
}

#[inline(always)]
fn take<const N: usize>(rest: &[u8]) -> Taken<'_, &[u8; N]> {
    rest.split_first_chunk().ok_or(UNFINISHED)
}

fn take_u16(rest: &[u8]) -> Taken<'_, u32> {
    let (bytes, rest) = take(rest)?;
    Ok((u32::from(u16::from_le_bytes(*bytes)), rest))
}

fn take_u32(rest: &[u8]) -> Taken<'_, u32> {
    let (bytes, rest) = take(rest)?;
    Ok((u32::from_le_bytes(*bytes), rest))
}

/// The `count` bytes to append to the label.
#[inline(always)]
fn appended(drop: u32, count: u32, rest: &[u8]) -> Taken<'_, Change<'_>> {
    let (add, rest) = rest.split_at_checked(count as usize).ok_or(UNFINISHED)?;
    Ok((Change { drop, add }, rest))
}

const KEEP_LABEL: Change<'static> = Change { drop: 0, add: &[] };

/// An item without a label.
#[inline(always)]
fn plain<'a>(what: What<'a>, rest: &'a [u8]) -> Taken<'a, Item<'a>> {
    Ok((Item { change: KEEP_LABEL, what }, rest))
}

/// "00-fd itself; fe and u16 plus 254; ff and u32"
#[inline(always)]
fn change_v3_to_v7(rest: &[u8]) -> Taken<'_, Change<'_>> {
    let (&[length], rest) = take(rest)?;
    match length {
        0xff => {
            let (count, rest) = take_u32(rest)?;
            appended(0, count, rest)
        }
        0xfe => {
            let (count, rest) = take_u16(rest)?;
            appended(0, count + 254, rest)
        }
        _ => appended(0, u32::from(length), rest),
    }
}

/// "one non-zero byte 16D+A; or 00, then D, then A"
#[inline(always)]
fn change_v8(rest: &[u8]) -> Taken<'_, Change<'_>> {
    let (&[byte], rest) = take(rest)?;
    if byte != 0 {
        return appended(u32::from(byte >> 4), u32::from(byte & 0x0f), rest);
    }
    let (drop, rest) = number_v8(rest)?;
    let (count, rest) = number_v8(rest)?;
    appended(drop, count, rest)
}

/// "each one byte below ff, or ff and u32"
fn number_v8(rest: &[u8]) -> Taken<'_, u32> {
    let (&[byte], rest) = take(rest)?;
    if byte == 0xff {
        take_u32(rest)
    } else {
        Ok((u32::from(byte), rest))
    }
}

#[inline(always)]
fn move_to(rest: &[u8]) -> Taken<'_, Item<'_>> {
    let (to, rest) = take(rest)?;
    plain(What::Move(to), rest)
}

fn error(rest: &[u8]) -> Taken<'_, Item<'_>> {
    let (five, rest) = take(rest)?;
    plain(What::Error(five), rest)
}

#[inline(always)]
fn leg<'a>(flags: u8, (change, rest): (Change<'a>, &'a [u8])) -> Taken<'a, Item<'a>> {
    let (to, rest) = take(rest)?;
    Ok((Item { change, what: What::Leg { flags, to } }, rest))
}

#[inline(always)]
fn station<'a>(flags: u8, (change, rest): (Change<'a>, &'a [u8])) -> Taken<'a, Item<'a>> {
    let (at, rest) = take(rest)?;
    Ok((Item { change, what: What::Station { flags, at } }, rest))
}

/// "L R U D as i16 or i32; bit 0: last in passage"
#[inline(always)]
fn section<'a>(code: u8, (change, rest): (Change<'a>, &'a [u8])) -> Taken<'a, Item<'a>> {
    let last = code & 0x01;
    if code & 0x02 == 0 {
        let (sides, rest) = take(rest)?;
        Ok((Item { change, what: What::Narrow { last, sides } }, rest))
    } else {
        let (sides, rest) = take(rest)?;
        Ok((Item { change, what: What::Wide { last, sides } }, rest))
    }
}

fn day(rest: &[u8]) -> Taken<'_, Item<'_>> {
    let (first, rest) = take_u16(rest)?;
    plain(What::Dated { first, last: first }, rest)
}

fn day_and_span(rest: &[u8]) -> Taken<'_, Item<'_>> {
    let (first, rest) = take_u16(rest)?;
    let (&[span], rest) = take(rest)?;
    plain(What::Dated { first, last: first + u32::from(span) }, rest)
}

fn two_days(rest: &[u8]) -> Taken<'_, Item<'_>> {
    let (first, rest) = take_u16(rest)?;
    let (last, rest) = take_u16(rest)?;
    plain(What::Dated { first, last }, rest)
}

fn one_time(rest: &[u8]) -> Taken<'_, Item<'_>> {
    let (time, rest) = take_u32(rest)?;
    plain(What::Dated { first: day_of(time), last: day_of(time) }, rest)
}

fn two_times(rest: &[u8]) -> Taken<'_, Item<'_>> {
    let (first, rest) = take_u32(rest)?;
    let (last, rest) = take_u32(rest)?;
    plain(What::Dated { first: day_of(first), last: day_of(last) }, rest)
}

/// "seconds / 86400, rounded down, plus 25567"
fn day_of(seconds: u32) -> u32 {
    seconds / 86400 + 25567
}

//! The codes of a sheet's records, by the rules that v7 and v8 share.

use std::marker::PhantomData;

use crate::sheet::{Record, SheetHeader};
use crate::state::{Date, UNDATED};
use crate::{turn, Number, NOT_SAID};

/// Where codes go: counted in the first pass, written in the second, so that
/// both passes run the same rules.
pub(crate) trait Sink {
    fn put(&mut self, bytes: &[u8]);
}

/// What each version does in its own way.
pub(crate) trait Version {
    const NUMBER: u8;
    /// The codes for no date, a day, a day and its span, two days.
    const DATES: [u8; 4];
    const ERROR: u8;
    const STATION: u8;
    const HAS_STYLES: bool;

    /// The number for what this version can't carry.
    const LOSS: Number;
    fn loses_header(head: &SheetHeader) -> bool;
    /// Whether it can't carry the record after this style.
    fn loses(style: u8, record: &Record) -> bool;

    /// A leg's code and label, after the label `before`.
    fn put_line(flags: u8, before: &[u8], label: &[u8], sink: &mut impl Sink);
    /// The code and label of a station or section, after the label `before`.
    fn put_name(code: u8, before: &[u8], label: &[u8], sink: &mut impl Sink);
    fn close(style: u8, label: &[u8], sink: &mut impl Sink);
}

/// The state a reader of the codes would have reached, kept as parts of the
/// sheet.
pub(crate) struct Codes<'a, V> {
    style: u8,
    date: Date,
    position: Option<&'a [u8; 12]>,
    label: &'a [u8],
    version: PhantomData<V>,
}

impl<'a, V: Version> Codes<'a, V> {
    pub fn new() -> Codes<'a, V> {
        Codes { style: NOT_SAID, date: UNDATED, position: None, label: &[], version: PhantomData }
    }

    #[inline]
    pub fn loses(&self, record: &Record) -> bool {
        V::loses(self.style, record)
    }

    /// One record's codes: "all the bytes written for it, style, date and
    /// MOVE included".
    #[inline]
    pub fn put(&mut self, record: &Record<'a>, sink: &mut impl Sink) {
        match *record {
            Record::Leg { flags, style, date, from, to, label } => {
                self.put_style(style, sink);
                self.put_date(date, sink);
                self.put_move(from, sink);
                self.put_line(flags, label, to, sink);
            }
            Record::Station { flags, at, label } => {
                self.put_name(V::STATION | flags, label, sink);
                sink.put(&little_endian(at));
            }
            Record::Section { last, date, sides, label } => {
                self.put_date(date, sink);
                self.put_section(last, sides, label, sink);
            }
            Record::Error(five) => {
                sink.put(&[V::ERROR]);
                sink.put(&little_endian(five));
            }
        }
    }

    /// "style code if it differs from the current style": a second 00 would
    /// end the file.
    #[inline]
    fn put_style(&mut self, style: u8, sink: &mut impl Sink) {
        if V::HAS_STYLES && style != self.style {
            sink.put(&[style]);
            self.style = style;
        }
    }

    /// "A day is 11, a range 12 if it spans at most 255 days, else 13"; v7 has
    /// other codes for the same.
    #[inline]
    fn put_date(&mut self, date: Date, sink: &mut impl Sink) {
        if date == self.date {
            return;
        }
        self.date = date;
        let [no_date, day, day_and_span, two_days] = V::DATES;
        let [kind, a, b, c, d] = date;
        if kind == 0 {
            return sink.put(&[no_date]);
        }
        if kind == 1 {
            return sink.put(&[day, b, a]);
        }
        // The layout has day < last day.
        match u8::try_from(u16::from_be_bytes([c, d]) - u16::from_be_bytes([a, b])) {
            Ok(span) => sink.put(&[day_and_span, b, a, span]),
            Err(_) => sink.put(&[two_days, b, a, d, c]),
        }
    }

    #[inline]
    fn put_move(&mut self, from: &'a [u8; 12], sink: &mut impl Sink) {
        if self.position != Some(from) {
            sink.put(&[0x0f]);
            sink.put(&little_endian(from));
        }
    }

    #[inline]
    fn put_line(&mut self, flags: u8, label: &'a [u8], to: &'a [u8; 12], sink: &mut impl Sink) {
        V::put_line(flags, self.label, label, sink);
        sink.put(&little_endian(to));
        self.label = label;
        self.position = Some(to);
    }

    /// "XSECT uses i16 if all four fit."
    #[inline]
    fn put_section(&mut self, last: u8, sides: &[u8; 16], label: &'a [u8], sink: &mut impl Sink) {
        match narrowed(sides) {
            Some(narrow) => {
                self.put_name(0x30 | last, label, sink);
                sink.put(&narrow);
            }
            None => {
                self.put_name(0x32 | last, label, sink);
                sink.put(&little_endian(sides));
            }
        }
    }

    #[inline]
    fn put_name(&mut self, code: u8, label: &'a [u8], sink: &mut impl Sink) {
        V::put_name(code, self.label, label, sink);
        self.label = label;
    }

    pub fn close(&self, sink: &mut impl Sink) {
        V::close(self.style, self.label, sink);
    }
}

/// The sheet's big-endian numbers as the file wants them.
#[inline]
fn little_endian<const N: usize>(numbers: &[u8; N]) -> [u8; N] {
    let mut turned = [0; N];
    turn(numbers, &mut turned);
    turned
}

/// Big-endian i32 to little-endian i16, if all four fit.
fn narrowed(sides: &[u8; 16]) -> Option<[u8; 8]> {
    let mut narrow = [0; 8];
    for (two, four) in narrow.as_chunks_mut::<2>().0.iter_mut().zip(sides.as_chunks::<4>().0) {
        *two = i16::try_from(i32::from_be_bytes(*four)).ok()?.to_le_bytes();
    }
    Some(narrow)
}

/// How many bytes both labels begin with, eight at a time.
#[inline]
pub(crate) fn common_start(one: &[u8], other: &[u8]) -> usize {
    let least = one.len().min(other.len());
    let (ones, one_end) = one[..least].as_chunks::<8>();
    let (others, other_end) = other[..least].as_chunks::<8>();
    for (at, (a, b)) in ones.iter().zip(others).enumerate() {
        let differ = u64::from_le_bytes(*a) ^ u64::from_le_bytes(*b);
        if differ != 0 {
            return 8 * at + differ.trailing_zeros() as usize / 8;
        }
    }
    let same = one_end.iter().zip(other_end).take_while(|(a, b)| a == b).count();
    8 * ones.len() + same
}

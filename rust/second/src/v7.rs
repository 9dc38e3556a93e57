//! What is v7's own in writing: the old label items, and no styles.

use crate::codes::{common_start, Sink, Version};
use crate::sheet::{Record, SheetHeader};
use crate::Number;

const LINE: u8 = 0x80;

pub(crate) struct V7;

impl Version for V7 {
    const NUMBER: u8 = 7;
    const DATES: [u8; 4] = [0x24, 0x20, 0x21, 0x23];
    const ERROR: u8 = 0x22;
    const STATION: u8 = 0x40;
    const HAS_STYLES: bool = false;

    const LOSS: Number = 23;

    /// "v3 to v7 are never extended"
    fn loses_header(head: &SheetHeader) -> bool {
        head.extended
    }

    /// "station flags 0x20 or 0x40; styles 1 to 4"
    #[inline]
    fn loses(_: u8, record: &Record) -> bool {
        match *record {
            Record::Leg { style, .. } => matches!(style, 1..=4),
            Record::Station { flags, .. } => flags & 0x60 != 0,
            Record::Section { .. } | Record::Error(_) => false,
        }
    }

    #[inline]
    fn put_line(flags: u8, before: &[u8], label: &[u8], sink: &mut impl Sink) {
        Self::put_name(LINE | flags, before, label, sink);
    }

    /// "These codes stand straight before the item"; it "always has its length
    /// byte, even for 0".
    #[inline]
    fn put_name(code: u8, before: &[u8], label: &[u8], sink: &mut impl Sink) {
        let keep = common_start(before, label);
        put_shortening(before.len(), keep, sink);
        sink.put(&[code]);
        put_length(label.len() - keep, sink);
        sink.put(&label[keep..]);
    }

    /// "00 if the label is not empty, then 00"
    fn close(_: u8, label: &[u8], sink: &mut impl Sink) {
        if !label.is_empty() {
            sink.put(&[0x00]);
        }
        sink.put(&[0x00]);
    }
}

/// "shorten by codes 10-1f only, 16 bytes at a time and the rest last; when
/// nothing is kept and the label is not empty, code 00"
#[inline]
fn put_shortening(length: usize, keep: usize, sink: &mut impl Sink) {
    if keep == 0 && length > 0 {
        return sink.put(&[0x00]);
    }
    let mut drop = length - keep;
    while drop >= 16 {
        sink.put(&[0x1f]);
        drop -= 16;
    }
    if drop > 0 {
        sink.put(&[0x0f + drop as u8]);
    }
}

/// "00-fd itself; fe and u16 plus 254"; a label is never long enough for ff.
#[inline]
fn put_length(length: usize, sink: &mut impl Sink) {
    if length < 254 {
        sink.put(&[length as u8]);
    } else {
        let [low, high] = ((length - 254) as u16).to_le_bytes();
        sink.put(&[0xfe, low, high]);
    }
}

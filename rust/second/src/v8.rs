//! What is v8's own in writing: styles, and labels that drop and append.

use crate::codes::{common_start, Sink, Version};
use crate::sheet::{Record, SheetHeader};
use crate::{Number, NORMAL, NOT_SAID};

pub(crate) struct V8;

impl Version for V8 {
    const NUMBER: u8 = 8;
    const DATES: [u8; 4] = [0x10, 0x11, 0x12, 0x13];
    const ERROR: u8 = 0x1f;
    const STATION: u8 = 0x80;
    const HAS_STYLES: bool = true;

    const LOSS: Number = 13;

    fn loses_header(_: &SheetHeader) -> bool {
        false
    }

    /// 13: "style 5 after another style", for which there is no code.
    #[inline]
    fn loses(current: u8, record: &Record) -> bool {
        matches!(*record, Record::Leg { style, .. } if style == NOT_SAID && current != NOT_SAID)
    }

    /// "a leg with the same label uses 0x20"
    #[inline]
    fn put_line(flags: u8, before: &[u8], label: &[u8], sink: &mut impl Sink) {
        let keep = common_start(before, label);
        let drop = before.len() - keep;
        if drop == 0 && keep == label.len() {
            sink.put(&[0x60 | flags]);
        } else {
            sink.put(&[0x40 | flags]);
            put_change(drop, &label[keep..], sink);
        }
    }

    /// "a station or section with the same non-empty label drops and appends
    /// its last byte (D = A = 1)"
    #[inline]
    fn put_name(code: u8, before: &[u8], label: &[u8], sink: &mut impl Sink) {
        let mut keep = common_start(before, label);
        if keep == label.len() && keep == before.len() {
            keep = keep.saturating_sub(1);
        }
        sink.put(&[code]);
        put_change(before.len() - keep, &label[keep..], sink);
    }

    /// "00 unless the style is normal, then 00"
    fn close(style: u8, _: &[u8], sink: &mut impl Sink) {
        if style != NORMAL {
            sink.put(&[0x00]);
        }
        sink.put(&[0x00]);
    }
}

/// "D and A both at most 15 and not both 0 take one byte, else the 00 form
/// with the shorter number each."
#[inline]
fn put_change(drop: usize, add: &[u8], sink: &mut impl Sink) {
    if drop <= 15 && add.len() <= 15 && drop + add.len() > 0 {
        sink.put(&[(16 * drop + add.len()) as u8]);
    } else {
        sink.put(&[0x00]);
        put_number(drop, sink);
        put_number(add.len(), sink);
    }
    sink.put(add);
}

/// ff announces a u32, so 255 itself cannot be one byte.
fn put_number(number: usize, sink: &mut impl Sink) {
    if number < 255 {
        sink.put(&[number as u8]);
    } else {
        // A label has at most 4,096 bytes.
        sink.put(&[0xff]);
        sink.put(&(number as u32).to_le_bytes());
    }
}

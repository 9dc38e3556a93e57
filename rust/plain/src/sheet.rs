//! What the two passes do with a record: the first counts its bytes, the second lays
//! them.

use crate::label::{Label, CHUNK};

/// A leg's style and date; a section has the date alone.
#[derive(Clone, Copy)]
pub(crate) struct Setting {
    /// Style, date kind and first day, as they follow each other in a leg.
    style_and_day: u32,
    last_day: u16,
}

impl Setting {
    /// Style "not said", and no date.
    pub const START: Setting = Setting { style_and_day: 5 << 24, last_day: 0 };

    pub fn style(&self) -> u8 {
        (self.style_and_day >> 24) as u8
    }

    pub fn set_style(&mut self, style: u8) {
        self.style_and_day = self.style_and_day & 0x00ff_ffff | u32::from(style) << 24;
    }

    pub fn set_undated(&mut self) {
        self.style_and_day &= 0xff00_0000;
        self.last_day = 0;
    }

    /// "A range of equal days is a single day"; "unused days are 0".
    pub fn set_days(&mut self, first: u16, last: u16) {
        let kind = if first == last { 1 } else { 2 };
        self.style_and_day = self.style_and_day & 0xff00_0000 | kind << 16 | u32::from(first);
        self.last_day = if first == last { 0 } else { last };
    }
}

/// Big-endian numbers of four bytes each, from little-endian ones.
#[inline(always)]
pub(crate) fn turned<const N: usize>(bytes: &[u8; N]) -> [u8; N] {
    let mut turned = *bytes;
    for (to, from) in turned.as_chunks_mut().0.iter_mut().zip(bytes.as_chunks().0) {
        *to = u32::from_le_bytes(*from).to_be_bytes();
    }
    turned
}

pub(crate) trait Sink {
    /// Whether the bytes of a label are wanted.
    const LAYS: bool;

    /// What is remembered of x, y and z.
    type Place: Copy;

    fn place(file: &[u8; 12]) -> Self::Place;
    fn leg(&mut self, flags: u8, setting: Setting, ends: [Self::Place; 2], label: Label);
    fn station(&mut self, flags: u8, at: Self::Place, label: Label);
    fn section(&mut self, last: u8, setting: Setting, sides: [u8; 16], label: Label);
    fn error(&mut self, five: &[u8; 20]);
}

/// A record's bytes without its label, its two length bytes among them.
const LEG: usize = 34;
const STATION: usize = 16;
const SECTION: usize = 25;
const ERROR: usize = 23;

/// The first pass.
#[derive(Clone, Copy, Default)]
pub(crate) struct Size {
    pub bytes: usize,
    pub records: usize,
}

impl Size {
    #[inline(always)]
    fn add(&mut self, bytes: usize) {
        self.bytes += bytes;
        self.records += 1;
    }
}

impl Sink for Size {
    const LAYS: bool = false;
    type Place = ();

    #[inline(always)]
    fn place(_: &[u8; 12]) {}

    #[inline(always)]
    fn leg(&mut self, _: u8, _: Setting, _: [(); 2], label: Label) {
        self.add(LEG + label.length);
    }

    #[inline(always)]
    fn station(&mut self, _: u8, (): (), label: Label) {
        self.add(STATION + label.length);
    }

    #[inline(always)]
    fn section(&mut self, _: u8, _: Setting, _: [u8; 16], label: Label) {
        self.add(SECTION + label.length);
    }

    fn error(&mut self, _: &[u8; 20]) {
        self.add(ERROR);
    }
}

/// The second pass: the part of the sheet that is still to be laid.
pub(crate) struct Sheet<'s> {
    pub out: &'s mut [u8],
}

/// Up to this length a label is laid by a copy of this many bytes and one of a chunk:
/// what is too much is laid over by the records that follow.
const SHORT: usize = 48;

impl Sheet<'_> {
    /// Lays a record's first bytes, `HEAD` of them, by `lay`, and its label.
    #[inline(always)]
    fn record<const HEAD: usize, const WHOLE: usize>(
        &mut self,
        label: Label,
        lay: impl FnOnce(&mut [u8; HEAD]),
    ) {
        let out = std::mem::take(&mut self.out);
        if out.len() >= WHOLE && label.length <= SHORT && label.kept <= SHORT {
            let (head, text) = out.split_first_chunk_mut().expect("room for a head");
            lay(head);
            text[..SHORT].copy_from_slice(label.front::<SHORT>());
            text[label.kept..label.kept + CHUNK].copy_from_slice(label.chunk);
            self.out = &mut text[label.length..];
        } else {
            let (head, text) = out.split_first_chunk_mut().expect("room for a head");
            lay(head);
            let (text, rest) = text.split_at_mut(label.length);
            let [kept, added] = label.parts();
            text[..kept.len()].copy_from_slice(kept);
            text[kept.len()..].copy_from_slice(added);
            self.out = rest;
        }
    }
}

impl Sink for Sheet<'_> {
    const LAYS: bool = true;
    type Place = [u8; 12];

    #[inline(always)]
    fn place(file: &[u8; 12]) -> [u8; 12] {
        turned(file)
    }

    #[inline(always)]
    fn leg(&mut self, flags: u8, setting: Setting, [from, to]: [[u8; 12]; 2], label: Label) {
        let length = (LEG - 2 + label.length) as u64;
        let start = length << 48 | 1 << 40 | u64::from(flags) << 32;
        self.record::<LEG, { LEG + SHORT + CHUNK }>(label, |head| {
            put(head, 0, (start | u64::from(setting.style_and_day)).to_be_bytes());
            put(head, 8, setting.last_day.to_be_bytes());
            put(head, 10, from);
            put(head, 22, to);
        });
    }

    #[inline(always)]
    fn station(&mut self, flags: u8, at: [u8; 12], label: Label) {
        let length = (STATION - 2 + label.length) as u32;
        let start = length << 16 | 2 << 8 | u32::from(flags);
        self.record::<STATION, { STATION + SHORT + CHUNK }>(label, |head| {
            put(head, 0, start.to_be_bytes());
            put(head, 4, at);
        });
    }

    #[inline(always)]
    fn section(&mut self, last: u8, setting: Setting, sides: [u8; 16], label: Label) {
        let length = (SECTION - 2 + label.length) as u64;
        let date = u64::from(setting.style_and_day & 0x00ff_ffff);
        let start = length << 48 | 3 << 40 | u64::from(last) << 32 | date << 8;
        self.record::<SECTION, { SECTION + SHORT + CHUNK }>(label, |head| {
            put(head, 0, start.to_be_bytes());
            put(head, 7, setting.last_day.to_be_bytes());
            put(head, 9, sides);
        });
    }

    fn error(&mut self, five: &[u8; 20]) {
        let out = std::mem::take(&mut self.out);
        let (record, rest) = out.split_first_chunk_mut::<ERROR>().expect("room for the record");
        put(record, 0, [0, ERROR as u8 - 2, 4]);
        put(record, 3, turned(five));
        self.out = rest;
    }
}

#[inline(always)]
fn put<const N: usize, const M: usize>(head: &mut [u8; N], place: usize, bytes: [u8; M]) {
    head[place..place + M].copy_from_slice(&bytes);
}

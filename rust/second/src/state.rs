//! What reading remembers from item to item.

use crate::item::{Change, Item, What};
use crate::{Number, LONGEST_LABEL, NORMAL, NOT_SAID};

/// A date as leg and section records hold it: kind, u16 day, u16 last day.
pub(crate) type Date = [u8; 5];
pub(crate) const UNDATED: Date = [0; 5];

const TOO_SHORT: Number = 6;
const TOO_LONG: Number = 7;
const NO_POSITION: Number = 8;
const BAD_DAYS: Number = 9;

pub(crate) struct State<'a> {
    label: [u8; LONGEST_LABEL],
    length: usize,
    pub style: u8,
    pub date: Date,
    /// The coordinates as they stand in the file.
    pub position: Option<&'a [u8; 12]>,
}

impl<'a> State<'a> {
    pub fn new() -> State<'a> {
        State {
            label: [0; LONGEST_LABEL],
            length: 0,
            style: NOT_SAID,
            date: UNDATED,
            position: None,
        }
    }

    pub fn label(&self) -> &[u8] {
        &self.label[..self.length]
    }

    /// Whether the item is the end of the data here.
    #[inline(always)]
    pub fn ends(&self, item: &Item) -> bool {
        match item.what {
            What::Stop => self.length == 0,
            What::Style(style) => style == NORMAL && self.style == NORMAL,
            _ => false,
        }
    }

    /// The label's length after the item, or 6, 7, 9 or 8, in this order.
    #[inline(always)]
    pub fn judge(&self, item: &Item) -> Result<usize, Number> {
        match item.what {
            What::Stop => return Ok(0),
            What::Drop(count) => return self.dropped(usize::from(count)),
            What::Dots(count) => return self.back_to_dot(count),
            What::Dated { first, last } if last < first || last > 65535 => return Err(BAD_DAYS),
            _ => {}
        }
        let length = self.changed(item.change)?;
        if matches!(item.what, What::Leg { .. }) && self.position.is_none() {
            return Err(NO_POSITION);
        }
        Ok(length)
    }

    /// "D up to the whole label is allowed."
    #[inline(always)]
    fn changed(&self, change: Change) -> Result<usize, Number> {
        let after_drop = self.length.checked_sub(change.drop as usize).ok_or(TOO_SHORT)?;
        let length = after_drop + change.add.len();
        if length > LONGEST_LABEL {
            return Err(TOO_LONG);
        }
        Ok(length)
    }

    /// "Dropping must leave at least one byte."
    fn dropped(&self, count: usize) -> Result<usize, Number> {
        if self.length <= count {
            return Err(TOO_SHORT);
        }
        Ok(self.length - count)
    }

    /// "drop 16 bytes, then back to the Nth dot from the end; that dot stays"
    fn back_to_dot(&self, count: u8) -> Result<usize, Number> {
        let left = &self.label[..self.dropped(16)?];
        let mut wanted = count;
        for (place, &byte) in left.iter().enumerate().rev() {
            if byte == b'.' {
                wanted -= 1;
                if wanted == 0 {
                    return Ok(place + 1);
                }
            }
        }
        Err(TOO_SHORT)
    }

    /// Gives the label the judged `length`. Without `KEEP` its bytes are let
    /// go: a measuring pass over v8 asks only for the length.
    #[inline(always)]
    pub fn relabel<const KEEP: bool>(&mut self, item: &Item, length: usize) {
        let add = item.change.add;
        if KEEP && !add.is_empty() {
            self.label[length - add.len()..length].copy_from_slice(add);
        }
        self.length = length;
    }

    /// What the item leaves for later records. "MOVE and LINE set the
    /// position"; styles touch only later legs, dates later sections too.
    #[inline(always)]
    pub fn apply(&mut self, item: &Item<'a>) {
        match item.what {
            What::Leg { to, .. } | What::Move(to) => self.position = Some(to),
            What::Style(style) => self.style = style,
            What::Undated => self.date = UNDATED,
            What::Dated { first, last } => self.date = date(first as u16, last as u16),
            _ => {}
        }
    }
}

/// "A range of equal days is a single day"; "Unused days are 0".
fn date(first: u16, last: u16) -> Date {
    let [a, b] = first.to_be_bytes();
    if first == last {
        return [1, a, b, 0, 0];
    }
    let [c, d] = last.to_be_bytes();
    [2, a, b, c, d]
}

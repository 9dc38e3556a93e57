//! Any item, with every refusal: the general way.

use crate::label::{to_dot, Label, LIMIT};
use crate::sheet::{turned, Sink};
use crate::walk::{widened, Pass};

const RESERVED: u8 = 4;
const UNFINISHED: u8 = 5;
const TOO_SHORT: u8 = 6;
const TOO_LONG: u8 = 7;
const NO_POSITION: u8 = 8;
const BAD_DAYS: u8 = 9;

/// What follows an item, or the end.
pub(crate) enum Next<'f> {
    Item(&'f [u8]),
    End(&'f [u8]),
}

/// Something taken, and what follows it; or a refusal's number.
type Taken<'f, T> = Result<(T, &'f [u8]), u8>;

/// What follows an item; or a refusal's number.
type After<'f> = Result<&'f [u8], u8>;

impl<const V8: bool, S: Sink> Pass<'_, V8, S> {
    /// The item at the front of `rest`; "in an item 4, 5, 6, 7, 9, 8".
    #[inline(never)]
    pub fn item<'f>(&mut self, rest: &'f [u8]) -> Result<Next<'f>, u8> {
        let (&code, rest) = rest.split_first().ok_or(UNFINISHED)?;
        let ends = if V8 { self.setting.style() == 0 } else { self.length == 0 };
        if code == 0 && ends {
            return Ok(Next::End(rest));
        }
        let after = if V8 { self.new_item(code, rest) } else { self.old_item(code, rest) };
        after.map(Next::Item)
    }

    /// An item of v8.
    fn new_item<'f>(&mut self, code: u8, rest: &'f [u8]) -> After<'f> {
        match code {
            0x00..=0x04 => {
                self.setting.set_style(code);
                Ok(rest)
            }
            0x0f => self.move_to(rest),
            0x10 => self.undated(rest),
            0x11 => self.day(rest),
            0x12 => self.span(rest),
            0x13 => self.two_days(rest),
            0x1f => self.error(rest),
            0x30..=0x33 => self.section(code, new_change(rest)?),
            0x40..=0x47 => self.leg(code & 0x07, new_change(rest)?),
            // "No label bytes and no change."
            0x60..=0x67 => self.leg(code & 0x07, (Change { drop: 0, add: &[] }, rest)),
            0x80..=0xff => self.station(code & 0x7f, new_change(rest)?),
            _ => Err(RESERVED),
        }
    }

    /// An item of v3 to v7.
    fn old_item<'f>(&mut self, code: u8, rest: &'f [u8]) -> After<'f> {
        match (code, self.version) {
            (0x00, _) => self.shorten(Some(0), rest),
            (0x01..=0x0e, _) => {
                let label = &self.buffer[..self.length];
                self.shorten(to_dot(label, usize::from(code)), rest)
            }
            (0x0f, _) => self.move_to(rest),
            (0x10..=0x1f, _) => {
                let left = self.length.checked_sub(usize::from(code) - 15);
                self.shorten(left.filter(|&left| left > 0), rest)
            }
            (0x20, 4..=6) => self.seconds(rest),
            (0x21, 4..=6) => self.two_seconds(rest),
            (0x20, 7) => self.day(rest),
            (0x21, 7) => self.span(rest),
            (0x22, 6..=7) => self.error(rest),
            (0x23, 7) => self.two_days(rest),
            (0x24, 7) => self.undated(rest),
            (0x30..=0x33, 5..=7) => self.section(code, old_change(rest)?),
            (0x40..=0x5f, _) => self.station(code & 0x1f, old_change(rest)?),
            (0x80..=0x87, _) => self.leg(code & 0x07, old_change(rest)?),
            _ => Err(RESERVED),
        }
    }

    fn leg<'f>(&mut self, flags: u8, (change, rest): (Change, &'f [u8])) -> After<'f> {
        let (to, rest) = take(rest)?;
        self.relabel(&change)?;
        let from = self.position.ok_or(NO_POSITION)?;
        let to = S::place(to);
        let label = Label::whole(self.buffer, self.length);
        self.sink.leg(flags, self.setting, [from, to], label);
        self.position = Some(to);
        Ok(rest)
    }

    fn station<'f>(&mut self, flags: u8, (change, rest): (Change, &'f [u8])) -> After<'f> {
        let (at, rest) = take(rest)?;
        self.relabel(&change)?;
        self.sink.station(flags, S::place(at), Label::whole(self.buffer, self.length));
        Ok(rest)
    }

    fn section<'f>(&mut self, code: u8, (change, rest): (Change, &'f [u8])) -> After<'f> {
        let (sides, rest) = if code & 0x02 == 0 {
            let (narrow, rest) = take(rest)?;
            (widened(narrow), rest)
        } else {
            let (wide, rest) = take(rest)?;
            (turned(wide), rest)
        };
        self.relabel(&change)?;
        let label = Label::whole(self.buffer, self.length);
        self.sink.section(code & 0x01, self.setting, sides, label);
        Ok(rest)
    }

    fn error<'f>(&mut self, rest: &'f [u8]) -> After<'f> {
        let (five, rest) = take(rest)?;
        self.sink.error(five);
        Ok(rest)
    }

    fn move_to<'f>(&mut self, rest: &'f [u8]) -> After<'f> {
        let (to, rest) = take(rest)?;
        self.position = Some(S::place(to));
        Ok(rest)
    }

    fn relabel(&mut self, change: &Change) -> Result<(), u8> {
        let kept = self.length.checked_sub(change.drop).ok_or(TOO_SHORT)?;
        if change.add.len() > LIMIT - kept {
            return Err(TOO_LONG);
        }
        self.length = kept + change.add.len();
        self.buffer[kept..self.length].copy_from_slice(change.add);
        Ok(())
    }

    /// Leaves `length` bytes of the label.
    fn shorten<'f>(&mut self, length: Option<usize>, rest: &'f [u8]) -> After<'f> {
        self.length = length.ok_or(TOO_SHORT)?;
        Ok(rest)
    }

    fn undated<'f>(&mut self, rest: &'f [u8]) -> After<'f> {
        self.setting.set_undated();
        Ok(rest)
    }

    fn day<'f>(&mut self, rest: &'f [u8]) -> After<'f> {
        let (&two, rest) = take(rest)?;
        let day = u32::from(u16::from_le_bytes(two));
        self.dated(day, day, rest)
    }

    fn span<'f>(&mut self, rest: &'f [u8]) -> After<'f> {
        let (&[a, b, span], rest) = take(rest)?;
        let first = u32::from(u16::from_le_bytes([a, b]));
        self.dated(first, first + u32::from(span), rest)
    }

    fn two_days<'f>(&mut self, rest: &'f [u8]) -> After<'f> {
        let (&[a, b, c, d], rest) = take(rest)?;
        let [first, last] = [[a, b], [c, d]].map(|two| u32::from(u16::from_le_bytes(two)));
        self.dated(first, last, rest)
    }

    fn seconds<'f>(&mut self, rest: &'f [u8]) -> After<'f> {
        let (&four, rest) = take(rest)?;
        self.dated(day_of(four), day_of(four), rest)
    }

    fn two_seconds<'f>(&mut self, rest: &'f [u8]) -> After<'f> {
        let (&first, rest) = take(rest)?;
        let (&last, rest) = take(rest)?;
        self.dated(day_of(first), day_of(last), rest)
    }

    fn dated<'f>(&mut self, first: u32, last: u32, rest: &'f [u8]) -> After<'f> {
        match (u16::try_from(first), u16::try_from(last)) {
            (Ok(first), Ok(last)) if first <= last => self.setting.set_days(first, last),
            _ => return Err(BAD_DAYS),
        }
        Ok(rest)
    }
}

fn take<const N: usize>(rest: &[u8]) -> Taken<'_, &[u8; N]> {
    rest.split_first_chunk().ok_or(UNFINISHED)
}

/// The bytes of a label to drop, and those to append.
struct Change<'f> {
    drop: usize,
    add: &'f [u8],
}

fn appended(drop: u32, count: u32, rest: &[u8]) -> Taken<'_, Change<'_>> {
    let (add, rest) = rest.split_at_checked(count as usize).ok_or(UNFINISHED)?;
    Ok((Change { drop: drop as usize, add }, rest))
}

/// "One non-zero byte 16D+A; or 00, then D, then A."
fn new_change(rest: &[u8]) -> Taken<'_, Change<'_>> {
    let (&[byte], rest) = take(rest)?;
    if byte != 0 {
        return appended(u32::from(byte >> 4), u32::from(byte & 0x0f), rest);
    }
    let (drop, rest) = new_number(rest)?;
    let (count, rest) = new_number(rest)?;
    appended(drop, count, rest)
}

/// "One byte below ff, or ff and u32."
fn new_number(rest: &[u8]) -> Taken<'_, u32> {
    let (&[byte], rest) = take(rest)?;
    if byte < 0xff {
        return Ok((u32::from(byte), rest));
    }
    let (&four, rest) = take(rest)?;
    Ok((u32::from_le_bytes(four), rest))
}

/// "00-fd itself; fe and u16 plus 254; ff and u32."
fn old_change(rest: &[u8]) -> Taken<'_, Change<'_>> {
    let (&[byte], rest) = take(rest)?;
    match byte {
        0xff => {
            let (&four, rest) = take(rest)?;
            appended(0, u32::from_le_bytes(four), rest)
        }
        0xfe => {
            let (&two, rest) = take(rest)?;
            appended(0, u32::from(u16::from_le_bytes(two)) + 254, rest)
        }
        _ => appended(0, u32::from(byte), rest),
    }
}

/// The day of seconds since 1970.
fn day_of(seconds: [u8; 4]) -> u32 {
    u32::from_le_bytes(seconds) / 86400 + 25567
}

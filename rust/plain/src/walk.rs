//! The loop of both passes over a file's items, and the arm for the commonest of them.

use crate::header::Header;
use crate::item::Next;
use crate::label::{Buffer, Label, CHUNK, LIMIT};
use crate::sheet::{turned, Setting, Sink};
use crate::Refusal;

/// The longest item that is taken at once: code, change of label, 15 bytes and L R U D.
const WINDOW: usize = 1 + 1 + 15 + 16;

/// What a pass remembers from item to item, and where its records go.
pub(crate) struct Pass<'b, const V8: bool, S: Sink> {
    pub version: u8,
    pub sink: S,
    /// The label is the first `length` bytes of `buffer`.
    pub buffer: &'b mut Buffer,
    pub length: usize,
    pub setting: Setting,
    pub position: Option<S::Place>,
}

/// Goes through all items up to the end, which must be the file's, and answers the sink.
pub(crate) fn walk<const V8: bool, S: Sink>(
    file: &[u8],
    &Header { version, items, .. }: &Header,
    sink: S,
) -> Result<S, Refusal> {
    let (length, setting, position) = (0, Setting::START, None);
    let buffer = &mut [0; LIMIT + CHUNK];
    let mut pass = Pass::<V8, S> { version, sink, buffer, length, setting, position };
    let mut rest = &file[items..];
    loop {
        (rest, pass) = common(rest, pass);
        let place = file.len() - rest.len();
        match pass.item(rest) {
            Ok(Next::Item(after)) => rest = after,
            Ok(Next::End([])) => return Ok(pass.sink),
            Ok(Next::End(after)) => return Err((10, file.len() - after.len())),
            Err(number) => return Err((number, place)),
        }
    }
}

/// All items up to the first that is not of the commonest kinds and short. What is
/// remembered goes in and out by value, so that it can stay in registers.
#[inline(always)]
fn common<'f, 'b, const V8: bool, S: Sink>(
    mut rest: &'f [u8],
    mut pass: Pass<'b, V8, S>,
) -> (&'f [u8], Pass<'b, V8, S>) {
    while let Some(window) = rest.first_chunk() {
        let Some(used) = pass.common_item(window) else { break };
        rest = &rest[used..];
    }
    (rest, pass)
}

impl<const V8: bool, S: Sink> Pass<'_, V8, S> {
    /// One of the commonest items, if it is whole within the window and nothing is to be
    /// refused: answers how many bytes it has. Any other is left to `item`.
    #[inline(always)]
    fn common_item(&mut self, window: &[u8; WINDOW]) -> Option<usize> {
        let code = window[0];
        match (V8, code) {
            (true, 0x80..=0xff) => self.common_station(code & 0x7f, window),
            (true, 0x40..=0x47) => self.common_leg(code & 0x07, window),
            (true, 0x60..=0x67) => self.same_label_leg(code & 0x07, window),
            (false, 0x80..=0x87) => self.common_leg(code & 0x07, window),
            (false, 0x40..=0x5f) => self.common_station(code & 0x1f, window),
            (false, 0x10..=0x1f) => self.common_drop(usize::from(code) - 15),
            (_, 0x30..=0x33) if V8 || self.version >= 5 => self.common_section(code, window),
            (_, 0x0f) => {
                self.position = Some(S::place(part(window, 1)));
                Some(13)
            }
            _ => None,
        }
    }

    #[inline(always)]
    fn common_leg(&mut self, flags: u8, window: &[u8; WINDOW]) -> Option<usize> {
        let from = self.position?;
        let Change { kept, chunk, length, place } = self.change(window)?;
        let to = S::place(part(window, place));
        let label = Label { buffer: self.buffer, kept, chunk, length };
        self.sink.leg(flags, self.setting, [from, to], label);
        self.position = Some(to);
        self.keep(kept, chunk, length);
        Some(place + 12)
    }

    /// A v8 leg with "no label bytes and no change".
    #[inline(always)]
    fn same_label_leg(&mut self, flags: u8, window: &[u8; WINDOW]) -> Option<usize> {
        let from = self.position?;
        let to = S::place(part(window, 1));
        let label = Label::whole(self.buffer, self.length);
        self.sink.leg(flags, self.setting, [from, to], label);
        self.position = Some(to);
        Some(13)
    }

    #[inline(always)]
    fn common_station(&mut self, flags: u8, window: &[u8; WINDOW]) -> Option<usize> {
        let Change { kept, chunk, length, place } = self.change(window)?;
        let label = Label { buffer: self.buffer, kept, chunk, length };
        self.sink.station(flags, S::place(part(window, place)), label);
        self.keep(kept, chunk, length);
        Some(place + 12)
    }

    #[inline(always)]
    fn common_section(&mut self, code: u8, window: &[u8; WINDOW]) -> Option<usize> {
        let Change { kept, chunk, length, place } = self.change(window)?;
        let (sides, bytes) = if code & 0x02 == 0 {
            (widened(part(window, place)), 8)
        } else {
            (turned(part(window, place)), 16)
        };
        let label = Label { buffer: self.buffer, kept, chunk, length };
        self.sink.section(code & 0x01, self.setting, sides, label);
        self.keep(kept, chunk, length);
        Some(place + bytes)
    }

    /// v3 to v7: "drop N-15 bytes", which "must leave at least one byte".
    #[inline(always)]
    fn common_drop(&mut self, count: usize) -> Option<usize> {
        if self.length <= count {
            return None;
        }
        self.length -= count;
        Some(1)
    }

    /// What a change of at most 15 bytes makes of the label.
    #[inline(always)]
    fn change<'w>(&self, window: &'w [u8; WINDOW]) -> Option<Change<'w>> {
        let byte = usize::from(window[1]);
        let (drop, count) = match (V8, byte) {
            (true, 1..) => (byte >> 4, byte & 0x0f),
            (false, 0..=15) => (0, byte),
            _ => return None,
        };
        let kept = self.length.checked_sub(drop)?;
        // Not kept + count: so it is known that a chunk has room behind what is kept.
        if kept > LIMIT - count {
            return None;
        }
        Some(Change { kept, chunk: part(window, 2), length: kept + count, place: 2 + count })
    }

    /// Makes the change. The first pass over v8 wants the length alone; before v8 the
    /// label's dots count in both.
    #[inline(always)]
    fn keep(&mut self, kept: usize, chunk: &[u8; CHUNK], length: usize) {
        if S::LAYS || !V8 {
            self.buffer[kept..kept + CHUNK].copy_from_slice(chunk);
        }
        self.length = length;
    }
}

/// A change of the label: what is kept of it, what is appended and how long it then is,
/// and where its item goes on.
struct Change<'w> {
    kept: usize,
    chunk: &'w [u8; CHUNK],
    length: usize,
    place: usize,
}

#[inline(always)]
fn part<const N: usize>(window: &[u8; WINDOW], place: usize) -> &[u8; N] {
    window[place..].first_chunk().expect("within the window")
}

/// L R U D as i32, big-endian, from i16: an omitted side is -1 in both.
#[inline(always)]
pub(crate) fn widened(narrow: &[u8; 8]) -> [u8; 16] {
    let mut wide = [0; 16];
    for (four, two) in wide.as_chunks_mut().0.iter_mut().zip(narrow.as_chunks().0) {
        *four = i32::from(i16::from_le_bytes(*two)).to_be_bytes();
    }
    wide
}

//! The current label: a buffer that both passes keep, and the length that is the label's.

/// The longest label.
pub(crate) const LIMIT: usize = 4096;

/// How much a short change appends at once, whatever of it counts.
pub(crate) const CHUNK: usize = 16;

/// A chunk more than the longest label, so that a whole one can always be appended.
pub(crate) type Buffer = [u8; LIMIT + CHUNK];

/// A record's label: the first `kept` bytes of the buffer as it is, then as many of the
/// chunk as make up `length`. The chunk comes from the file and goes into the buffer after
/// the record is laid: laid from the buffer, it would have to be waited for.
#[derive(Clone, Copy)]
pub(crate) struct Label<'b> {
    pub buffer: &'b Buffer,
    pub kept: usize,
    pub chunk: &'b [u8; CHUNK],
    pub length: usize,
}

impl<'b> Label<'b> {
    /// The first `length` bytes of the buffer.
    pub fn whole(buffer: &'b Buffer, length: usize) -> Label<'b> {
        Label { buffer, kept: length, chunk: &[0; CHUNK], length }
    }

    /// What is kept, and what is appended.
    pub fn parts(self) -> [&'b [u8]; 2] {
        [&self.buffer[..self.kept], &self.chunk[..self.length - self.kept]]
    }

    /// The buffer's first bytes, of which those kept of a short label are the front.
    #[inline(always)]
    pub fn front<const N: usize>(self) -> &'b [u8; N] {
        self.buffer.first_chunk().expect("a front within the buffer")
    }
}

/// The length left by "drop 16 bytes, then back to the Nth dot from the end; that dot
/// stays", if there is one.
pub(crate) fn to_dot(label: &[u8], count: usize) -> Option<usize> {
    let left = label.len().checked_sub(16).filter(|&left| left > 0)?;
    let dots = label[..left].iter().enumerate().rev().filter(|(_, &byte)| byte == b'.');
    dots.map(|(place, _)| place + 1).nth(count - 1)
}

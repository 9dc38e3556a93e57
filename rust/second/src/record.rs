//! The record an item makes, as it stands in a version 2 sheet with its length
//! bytes.

use crate::item::{Item, What};
use crate::state::State;
use crate::turn;

/// The record's length with its two length bytes, for a label of `length`
/// bytes; nothing for an item that makes no record.
#[inline(always)]
pub(crate) fn size(item: &Item, length: usize) -> Option<usize> {
    match item.what {
        What::Leg { .. } => Some(2 + 32 + length),
        What::Station { .. } => Some(2 + 14 + length),
        What::Narrow { .. } | What::Wide { .. } => Some(2 + 23 + length),
        What::Error(_) => Some(2 + 21),
        _ => None,
    }
}

/// Writes the item's record to the front of `out`, which must have room, and
/// answers its length. The state has the item's label already but not yet its
/// position.
#[inline(always)]
pub(crate) fn put(item: &Item, state: &State, out: &mut [u8]) -> usize {
    match item.what {
        What::Leg { flags, to } => put_leg(flags, to, state, out),
        What::Station { flags, at } => put_station(flags, at, state, out),
        What::Narrow { last, sides } => put_section(last, &widened(sides), state, out),
        What::Wide { last, sides } => put_section(last, sides, state, out),
        What::Error(five) => put_error(five, out),
        _ => 0,
    }
}

#[inline(always)]
fn put_leg(flags: u8, to: &[u8; 12], state: &State, out: &mut [u8]) -> usize {
    let label = state.label();
    let (start, rest) = begin::<10>(32 + label.len(), out);
    start[2] = 1;
    start[3] = flags;
    start[4] = state.style;
    start[5..].copy_from_slice(&state.date);
    // A leg with no position was refused before it came here.
    let rest = put_numbers(state.position.unwrap_or(&[0; 12]), rest);
    let rest = put_numbers(to, rest);
    rest.copy_from_slice(label);
    2 + 32 + label.len()
}

#[inline(always)]
fn put_station(flags: u8, at: &[u8; 12], state: &State, out: &mut [u8]) -> usize {
    let label = state.label();
    let (start, rest) = begin::<4>(14 + label.len(), out);
    start[2] = 2;
    start[3] = flags;
    put_numbers(at, rest).copy_from_slice(label);
    2 + 14 + label.len()
}

#[inline]
fn put_section(last: u8, sides: &[u8; 16], state: &State, out: &mut [u8]) -> usize {
    let label = state.label();
    let (start, rest) = begin::<9>(23 + label.len(), out);
    start[2] = 3;
    start[3] = last;
    start[4..].copy_from_slice(&state.date);
    put_numbers(sides, rest).copy_from_slice(label);
    2 + 23 + label.len()
}

fn put_error(five: &[u8; 20], out: &mut [u8]) -> usize {
    let (start, rest) = begin::<3>(21, out);
    start[2] = 4;
    put_numbers(five, rest);
    2 + 21
}

/// Writes the length bytes of a record of `size` bytes. Answers the record's
/// first `N` bytes, these two among them, and the rest of it.
#[inline(always)]
fn begin<const N: usize>(size: usize, out: &mut [u8]) -> (&mut [u8; N], &mut [u8]) {
    let (start, rest) = split(&mut out[..2 + size]);
    // At most 4,128, so the cast keeps it.
    start[..2].copy_from_slice(&(size as u16).to_be_bytes());
    (start, rest)
}

/// Writes the file's numbers big-endian and answers what is left.
#[inline(always)]
fn put_numbers<'o, const N: usize>(numbers: &[u8; N], out: &'o mut [u8]) -> &'o mut [u8] {
    let (start, rest) = split(out);
    turn(numbers, start);
    rest
}

#[inline(always)]
fn split<const N: usize>(out: &mut [u8]) -> (&mut [u8; N], &mut [u8]) {
    out.split_first_chunk_mut().expect("room for the whole record")
}

/// i16 to i32, both little-endian. An omitted side is -1 in both, so the sign
/// is all there is to carry.
#[inline]
fn widened(sides: &[u8; 8]) -> [u8; 16] {
    let mut wide = [0; 16];
    for (four, two) in wide.as_chunks_mut::<4>().0.iter_mut().zip(sides.as_chunks::<2>().0) {
        *four = i32::from(i16::from_le_bytes(*two)).to_le_bytes();
    }
    wide
}

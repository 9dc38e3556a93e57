//! Damage to files and sheets.

use crate::coder::Coder;
use crate::rng::Rng;

/// The file's first bytes, every count of them below its length.
pub fn cuts(bytes: &[u8]) -> impl Iterator<Item = Vec<u8>> + '_ {
    (0..bytes.len()).map(|end| bytes[..end].to_vec())
}

/// Every byte changed in each bit, to 00 and ff, and by one.
pub fn changes(bytes: &[u8]) -> impl Iterator<Item = Vec<u8>> + '_ {
    (0..bytes.len()).flat_map(move |place| {
        let old = bytes[place];
        let bits = (0..8).map(move |bit| old ^ (1 << bit));
        let others = [0, 0xff, old.wrapping_add(1), old.wrapping_sub(1)];
        bits.chain(others).map(move |new| changed(bytes, place, new))
    })
}

/// Every value of the byte at each of the places.
pub fn values<'b>(bytes: &'b [u8], places: &'b [usize]) -> impl Iterator<Item = Vec<u8>> + 'b {
    places.iter().flat_map(move |&place| (0..=255).map(move |new| changed(bytes, place, new)))
}

/// A byte more at every place.
pub fn inserts(bytes: &[u8]) -> impl Iterator<Item = Vec<u8>> + '_ {
    (0..=bytes.len()).flat_map(move |place| {
        [0, 0x10, 0xff].map(|new| [&bytes[..place], &[new], &bytes[place..]].concat())
    })
}

/// Each byte taken away.
pub fn removals(bytes: &[u8]) -> impl Iterator<Item = Vec<u8>> + '_ {
    (0..bytes.len()).map(|place| [&bytes[..place], &bytes[place + 1..]].concat())
}

pub fn changed(bytes: &[u8], place: usize, new: u8) -> Vec<u8> {
    let mut bytes = bytes.to_vec();
    bytes[place] = new;
    bytes
}

/// One byte changed, in one bit or to any value.
pub fn flip(rng: &mut Rng, bytes: &mut [u8]) {
    if bytes.is_empty() {
        return;
    }
    let place = rng.below(bytes.len());
    match rng.below(3) {
        0 => bytes[place] = rng.byte(),
        1 => bytes[place] = rng.pick(&[0, 1, 0x0f, 0x10, 0x20, 0x7f, 0x80, 0xfe, 0xff]),
        _ => bytes[place] ^= 1 << rng.below(8),
    }
}

/// A few bytes more, at one place.
pub fn insert(rng: &mut Rng, bytes: &mut Vec<u8>) {
    let place = rng.below(bytes.len() + 1);
    let more: Vec<u8> = (0..1 + rng.below(4)).map(|_| rng.byte()).collect();
    bytes.splice(place..place, more);
}

/// A few bytes less, at one place.
pub fn remove(rng: &mut Rng, bytes: &mut Vec<u8>) {
    let place = rng.below(bytes.len() + 1);
    let end = bytes.len().min(place + 1 + rng.below(4));
    bytes.drain(place..end);
}

/// Lengths that no label has, and some that one has.
const LENGTHS: [u32; 14] = [
    0,
    1,
    254,
    255,
    4096,
    4097,
    65535,
    65790,
    0x00ff_ffff,
    0x7fff_ffff,
    0x8000_0000,
    0xffff_fff0,
    0xffff_fffe,
    0xffff_ffff,
];

/// One label's length replaced by another, mostly a huge one.
pub fn lengthen(rng: &mut Rng, file: &Coder) -> Vec<u8> {
    let mut bytes = file.bytes.clone();
    if file.lengths.is_empty() {
        return bytes;
    }
    let place = rng.pick(&file.lengths);
    let one = rng.pick(&LENGTHS).to_le_bytes();
    let other = rng.pick(&LENGTHS).to_le_bytes();
    let (a, b) = (rng.byte(), rng.byte());
    let new = match (file.version == 8, rng.below(4)) {
        (true, 0) => [&[0, 0xff], &one[..], &[0xff], &other].concat(),
        (true, 1) => [&[0, 0xff], &one[..], &[a]].concat(),
        (true, 2) => [&[0, a, 0xff], &one[..]].concat(),
        (true, _) => vec![0, a, b],
        (false, 0) => vec![0xfe, a, b],
        (false, 1) => vec![0xfe, 0xff, 0xff],
        (false, _) => [&[0xff], &one[..]].concat(),
    };
    bytes.splice(place..place + 1, new);
    bytes
}

/// Any bytes, half the time after a valid header.
pub fn noise(rng: &mut Rng, head: &[u8]) -> Vec<u8> {
    let mut bytes = if rng.one_in(4) { Vec::new() } else { head.to_vec() };
    let small = rng.one_in(2);
    for _ in 0..rng.below(80) {
        let byte = rng.byte();
        bytes.push(if small { byte & 0x8f & rng.byte() } else { byte });
    }
    bytes
}

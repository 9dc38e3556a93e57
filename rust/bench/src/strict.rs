//! Strict reading against the same with std's HashMap, how it grows with the
//! names, and a file that was made for a known seed.

use super::{needed, proved, times, Answer, Pair, TEN_MIB};
use generate::coder::{Coder, Form};
use std::sync::atomic::{AtomicUsize, Ordering};
use std::time::Instant;

/// How many bytes at the end of what is lent are room for names.
static NAMES: AtomicUsize = AtomicUsize::new(0);

const SEED: u64 = 0x5eed_0f17_2a83_c10d;

pub fn report(repeats: usize) {
    let file = stations(usize::MAX);
    let lent = lengths(&file);
    println!("strict: file {} bytes of stations, {} for names", file.len(), lent.1);
    let pair = Pair { proved: proved_strict, other: second_strict, against: "HashMap" };
    let mut lent = vec![0x5a; lent.0 + lent.1];
    super::agree(&file, &mut lent, pair);
    times("strict", &file, &mut lent, pair, repeats);
    for count in [100_000, 200_000, 500_000, 1_000_000] {
        grown(&stations(count), count, repeats);
    }
    let file = flood(SEED, 20_000);
    for (what, seed) in [("a known", SEED), ("another", SEED + 1)] {
        let (took, _) = least(&file, seed, 3);
        println!("  20000 names made for a known seed, read with {what} seed: {took:.2} ms");
    }
}

fn split(out: &mut [u8]) -> (&mut [u8], &mut [u8]) {
    let sheet = out.len().saturating_sub(NAMES.load(Ordering::Relaxed));
    out.split_at_mut(sheet)
}

fn proved_strict(file: &[u8], out: &mut [u8]) -> Answer {
    let (sheet, names) = split(out);
    proved::read_strict(file, sheet, names, SEED)
}

fn second_strict(file: &[u8], out: &mut [u8]) -> Answer {
    let (sheet, names) = split(out);
    second::read_strict(file, sheet, names)
}

/// The bytes of the sheet, and of the names, which are all different: a station
/// takes 16 bytes there beside its name, and 32 in the room.
fn lengths(file: &[u8]) -> (usize, usize) {
    let sheet = needed(second::read, file);
    let read = second::read(file, &mut vec![0; sheet]);
    let Answer::Done { records, .. } = read else { panic!("{read:?}") };
    let names = sheet - 10 + 16 * records;
    NAMES.store(names, Ordering::Relaxed);
    (sheet, names)
}

/// The least time in milliseconds, and the bytes for names.
fn least(file: &[u8], seed: u64, repeats: usize) -> (f64, usize) {
    let (sheet, names) = lengths(file);
    let (mut sheet, mut room) = (vec![0x5a; sheet], vec![0x5a; names]);
    let took = (0..repeats).map(|_| {
        let start = Instant::now();
        let answer = proved::read_strict(file, &mut sheet, &mut room, seed);
        assert!(matches!(answer, Answer::Done { .. }), "{answer:?}");
        start.elapsed().as_secs_f64() * 1e3
    });
    (took.fold(f64::MAX, f64::min), names)
}

fn grown(file: &[u8], count: usize, repeats: usize) {
    let (took, names) = least(file, SEED, repeats);
    let each = took * 1e6 / count as f64;
    println!("  {count} names, {names} bytes: least {took:.2} ms, {each:.0} ns a name");
}

/// A v8 file of stations with different names, counted up in their last four
/// bytes: 10 MiB, or so many.
fn stations(count: usize) -> Vec<u8> {
    let mut coder = Coder::short(8);
    coder.station(0, (0, b"cave.series.passage.0000", Form::Least), [0; 3]);
    for number in 1..count {
        if count == usize::MAX && coder.bytes.len() > TEN_MIB - 18 {
            break;
        }
        let name = digits(number);
        let kept = digits(number - 1).iter().zip(&name).take_while(|(a, b)| a == b).count();
        coder.station(0, (4 - kept, &name[kept..], Form::Least), [number as i32; 3]);
    }
    coder.close();
    coder.bytes
}

/// A number below 2^20 in four digits.
fn digits(number: usize) -> [u8; 4] {
    [15, 10, 5, 0].map(|shift| b'0' + (number >> shift & 31) as u8)
}

/// A v8 file of names that all have the same hash under a seed, as the definition
/// `hash_of` of the index has it: two words, the second of which undoes the first.
fn flood(seed: u64, count: u32) -> Vec<u8> {
    let factor = (2_654_435_761 + seed / (1 << 33) * 2) % (1 << 32);
    let mix = |h: u32, w: u32| {
        let product = u64::from(h ^ w) * factor;
        (product >> 32) as u32 ^ product as u32
    };
    let mut coder = Coder::short(8);
    for first in 0..count {
        let name = [first.to_le_bytes(), mix(seed as u32, first).to_le_bytes()].concat();
        coder.station(0, (coder.label.len(), &name, Form::Least), [0; 3]);
    }
    coder.close();
    coder.bytes
}

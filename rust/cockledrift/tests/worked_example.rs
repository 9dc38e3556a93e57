//! The worked example of docs/FORMAT.md, byte for byte, and what its calls answer.

use cockledrift::{compare, convert, edit, edit_vec, read, read_vec, write_vec};
use cockledrift::{Done, Later, Refusal, RefusedFile, Which};

const HEADER: &str = "53 75 72 76 65 78 20 33 44 20 49 6d 61 67 65 20 46 69 6c 65 0a
    76 38 0a 41 0a 40 30 0a 00";
const STATION: &str = "82 03 61 2e 31 00 00 00 00 00 00 00 00 00 00 00 00";
const LEG: &str = "00 0f 00 00 00 00 00 00 00 00 00 00 00 00
    40 20 64 00 00 00 00 00 00 00 ff ff ff ff";
const SHEET: &str = "02 00 07 00 00 00 01 41 40 30
    00 11 02 02 00 00 00 00 00 00 00 00 00 00 00 00 61 2e 31
    00 21 01 00 00 00 00 00 00 00
    00 00 00 00 00 00 00 00 00 00 00 00
    00 00 00 64 00 00 00 00 ff ff ff ff 61";
const NEW: &str = "00 11 02 00 00 00 00 64 00 00 00 00 ff ff ff ff 61 2e 32";
const NEW_CODES: &str = "80 02 2e 32 64 00 00 00 00 00 00 00 ff ff ff ff";

/// The bytes that these spell.
fn bytes(parts: &[&str]) -> Vec<u8> {
    let words = parts.iter().flat_map(|part| part.split_whitespace());
    words.map(|word| u8::from_str_radix(word, 16).expect("a byte")).collect()
}

fn file() -> Vec<u8> {
    bytes(&[HEADER, STATION, LEG, "00"])
}

fn refused(number: u8, place: usize) -> Refusal {
    Refusal { number, place }
}

#[test]
fn reading_and_writing() {
    assert_eq!(read_vec(&file()), Ok(bytes(&[SHEET])));
    assert_eq!(write_vec(&bytes(&[SHEET])), Ok(file()));
    assert_eq!(read_vec(&file()[..75]), Err(refused(5, 75)));
    assert_eq!(read_vec(&bytes(&[HEADER, STATION, LEG, "00 00"])), Err(refused(10, 76)));
    let (mut sheet, mut out) = ([0; 64], [0; 75]);
    assert_eq!(read(&file(), &mut sheet), Ok(Done { bytes: 64, records: 2, version: 8 }));
    assert_eq!(convert(&file(), &mut sheet, &mut out), Err(refused(11, 76)));
    assert_eq!(out, [0; 75]);
}

#[test]
fn editing() {
    let new = bytes(&[NEW]);
    let edited = bytes(&[HEADER, STATION, LEG, NEW_CODES, "00"]);
    assert_eq!(edit_vec(&file(), 2, 0, &new), Ok(edited));
    let mut out = [0; 92];
    assert_eq!(edit(&file(), 2, 0, &new, &mut out), Ok(Done { bytes: 92, records: 3, version: 8 }));
    assert_eq!(edit(&file(), 2, 1, &new, &mut out), Err(refused(15, 2)));
    assert_eq!(edit(&file(), 1, 1, &new[1..], &mut out), Err(refused(12, 0)));
}

#[test]
fn comparing() {
    let (file, mut later) = (file(), bytes(&[HEADER]));
    later[27] = b'1';
    assert_eq!(compare(&file, &later), Ok(Later::Second(b"@1")));
    assert_eq!(compare(&later, &file), Ok(Later::First(b"@1")));
    assert_eq!(compare(&file, &file), Ok(Later::Same));
    let no = |file, number, place| Err(RefusedFile { file, refusal: refused(number, place) });
    assert_eq!(compare(&[], &[]), no(Which::First, 1, 0));
    assert_eq!(compare(&file, &file[..27]), no(Which::Second, 3, 26));
}

/// Every number has words of its own.
#[test]
fn reasons() {
    let none = refused(255, 0).reason();
    let numbers = (1..=17).chain([20, 21, 23]);
    let mut reasons: Vec<_> = numbers.map(|number| refused(number, 0).reason()).collect();
    assert!(!reasons.contains(&none));
    let count = reasons.len();
    reasons.sort();
    reasons.dedup();
    assert_eq!(reasons.len(), count);
}

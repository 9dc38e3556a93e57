//! Refusal 16: files read and written around 16,777,216 bytes, and the
//! largest records.

use compare::disagree;
use generate::coder::{Coder, Form};
use generate::record::{sheet, station, with_short_header};
use second::Answer;

const LONGEST: usize = 16_777_216;

fn read(file: &[u8]) -> Answer {
    compare::read(file).unwrap_or_else(|difference| disagree("reading", &file[..99], &difference))
}

fn write(sheet: &[u8]) -> Answer {
    compare::write(sheet)
        .unwrap_or_else(|difference| disagree("writing", &sheet[..99], &difference))
}

fn convert(file: &[u8]) -> Answer {
    compare::convert(file)
        .unwrap_or_else(|difference| disagree("converting", &file[..99], &difference))
}

/// A v8 file of exactly this many bytes: MOVEs, and dates for the odd bytes.
fn file_of(length: usize) -> Vec<u8> {
    let mut coder = Coder::short(8);
    while coder.bytes.len() + 15 + 13 <= length {
        coder.move_to([1, 2, 3]);
    }
    while coder.bytes.len() + 2 < length {
        coder.undated();
    }
    coder.close();
    coder.bytes
}

#[test]
fn the_longest_file_reads() {
    let file = file_of(LONGEST);
    assert_eq!(file.len(), LONGEST);
    assert_eq!(read(&file), Answer::Done { bytes: 10, records: 0, version: 8 });
    assert_eq!(read(&file[..LONGEST - 1]), Answer::Refused { number: 5, place: LONGEST - 1 });
}

/// 16 comes before all others, whatever the file.
#[test]
fn a_longer_file_is_refused() {
    let refused = Answer::Refused { number: 16, place: 0 };
    let mut file = file_of(LONGEST);
    file.push(0);
    assert_eq!(read(&file), refused);
    file[0] = 0;
    assert_eq!(read(&file), refused);
    assert_eq!(convert(&file), refused);
    let (later, _) = compare::later(&file, b"").unwrap();
    assert_eq!(later, second::Later::Refused { file: 1, number: 16, place: 0 });
}

/// Stations with labels of 4,096 bytes, all different from their first byte
/// on, and one last label that makes the file's length exact.
fn sheet_for(length: usize) -> Vec<u8> {
    // Code, 00, D and A as u32, the label, x y z.
    let each = 1 + 1 + 5 + 5 + 4096 + 12;
    let first = each - 4;
    let empty = 32;
    let count = (length - empty - first) / each;
    let left = length - empty - first - count * each;
    let mut records: Vec<_> =
        (0..=count).map(|number| station(0, [1, 2, 3], &[b"ab"[number % 2]; 4096])).collect();
    // Its D and A are u32 too: A is 255 or more.
    let last = left - (each - 4096);
    assert!(last >= 255);
    records.push(station(0, [4, 5, 6], &vec![b'z'; last]));
    with_short_header(&records)
}

#[test]
fn the_longest_file_is_written() {
    for more in 0..2 {
        let sheet = sheet_for(LONGEST + more);
        let answer = write(&sheet);
        if more == 0 {
            assert!(matches!(answer, Answer::Done { bytes: LONGEST, .. }), "{answer:?}");
        } else {
            assert_eq!(answer, Answer::Refused { number: 16, place: 0 });
        }
    }
}

/// A v3 file within the limit whose v8 file is not: a station with the same
/// label takes 14 bytes there, and 15 in v8.
#[test]
fn a_conversion_may_grow_too_long() {
    let mut coder = Coder::short(3);
    coder.station(0, (0, b"a", Form::Least), [0; 3]);
    while coder.bytes.len() + 14 + 2 <= LONGEST {
        coder.station(0, (0, b"", Form::Least), [0; 3]);
    }
    coder.close();
    assert_eq!(convert(&coder.bytes), Answer::Refused { number: 16, place: 0 });
}

/// "With its length bytes the header takes at most 4,166, any other record
/// 4,130."
#[test]
fn the_largest_records() {
    let head = generate::record::header(1, &[b't'; 4096], &[b'u'; 64]);
    let leg = generate::record::Leg::plain(&[b'l'; 4096]).body();
    assert_eq!((head.len() + 2, leg.len() + 2), (4166, 4130));
    assert!(matches!(write(&sheet(&[head, leg])), Answer::Done { records: 1, .. }));
}

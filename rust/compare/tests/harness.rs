//! Wrong answers must be found: each of these is a small lie of the kind a
//! faulty library would tell.

use compare::{convert_by, edit_by, later_by, read_by, write_by, Difference};
use generate::sheets;
use generate::times;
use generate::valid::tour;
use generate::Edit;
use second::{Answer, Later};

fn found(result: Result<Answer, Difference>) -> Difference {
    result.expect_err("a lie went unnoticed")
}

/// A refusal's place, a count and a version, each off by one.
#[test]
fn wrong_answers_are_found() {
    let file = tour(8).bytes;
    let off = |answer| match answer {
        Answer::Refused { number: 5, place } => Answer::Refused { number: 5, place: place + 1 },
        Answer::Done { bytes, records, version } => {
            Answer::Done { bytes, records: records + 1, version }
        }
        other => other,
    };
    let lie = |file: &[u8], sheet: &mut [u8]| off(second::read(file, sheet));
    assert!(found(read_by(&lie, &file)).byte.is_none());
    assert!(found(read_by(&lie, &file[..file.len() - 1])).byte.is_none());
    let old = |file: &[u8], sheet: &mut [u8]| match second::read(file, sheet) {
        Answer::Done { bytes, records, .. } => Answer::Done { bytes, records, version: 7 },
        other => other,
    };
    found(read_by(&old, &file));
}

/// One byte of the sheet wrong, one past it touched, one written before a
/// refusal, one written when the buffer is a byte short.
#[test]
fn wrong_bytes_are_found() {
    let file = tour(7).bytes;
    let lie = |file: &[u8], sheet: &mut [u8]| {
        let answer = second::read(file, sheet);
        if let Answer::Done { bytes, .. } = answer {
            sheet[bytes - 1] ^= 1;
        }
        answer
    };
    assert!(found(read_by(&lie, &file)).byte.is_some());
    let lie = |file: &[u8], sheet: &mut [u8]| {
        let answer = second::read(file, sheet);
        if let (Answer::Done { bytes, .. }, true) = (answer, sheet.len() > 9) {
            sheet[bytes..].iter_mut().for_each(|byte| *byte = 0);
        }
        answer
    };
    assert!(found(read_by(&lie, &file)).byte.is_some());
    let hasty = |file: &[u8], sheet: &mut [u8]| {
        let answer = second::read(file, sheet);
        if let (Answer::Refused { .. }, Some(first)) = (answer, sheet.first_mut()) {
            *first = 1;
        }
        answer
    };
    assert!(found(read_by(&hasty, &file)).byte.is_some());
    assert!(found(read_by(&hasty, &file[..file.len() - 1])).byte.is_some());
}

/// The memory beside the lent bytes is watched on both sides.
#[test]
fn bytes_outside_are_found() {
    let file = tour(3).bytes;
    for (from, place) in [(-1, -1), (0, 0)] {
        let lie = |file: &[u8], sheet: &mut [u8]| {
            let answer = second::read(file, sheet);
            let end = if from < 0 { -1 } else { sheet.len() as isize };
            // SAFETY: the harness keeps 16 bytes of its own on each side.
            unsafe { *sheet.as_mut_ptr().offset(end) ^= 0xff };
            answer
        };
        let (buffer, wrong) = found(read_by(&lie, &file)).byte.expect("a byte outside");
        // The first buffer tried has no bytes, so its end is its start.
        assert_eq!((buffer, wrong), (0, place));
    }
}

#[test]
fn wrong_writing_is_found() {
    let sheet = sheets::tour();
    let lie = |sheet: &[u8], out: &mut [u8]| {
        let answer = second::write(sheet, out);
        if let Answer::Done { .. } = answer {
            out[40] ^= 0x80;
        }
        answer
    };
    assert!(found(write_by(&lie, &sheet)).byte.is_some());
}

/// A converter that leaves the sheet out after a writer's refusal, and one
/// that touches the file buffer then.
#[test]
fn wrong_converting_is_found() {
    let file = tour(5).bytes;
    let lie = |file: &[u8], sheet: &mut [u8], out: &mut [u8]| {
        let answer = second::convert(file, &mut sheet.to_vec(), out);
        if let Answer::Done { .. } = answer {
            second::read(file, sheet);
        }
        answer
    };
    assert_eq!(found(convert_by(&lie, &file)).byte.map(|(buffer, _)| buffer), Some(0));
    let lie = |file: &[u8], sheet: &mut [u8], out: &mut [u8]| {
        let answer = second::convert(file, sheet, out);
        if let (Answer::Refused { .. }, Some(first)) = (answer, out.first_mut()) {
            *first = 0;
        }
        answer
    };
    assert_eq!(found(convert_by(&lie, &file)).byte.map(|(buffer, _)| buffer), Some(1));
}

/// The right words from the wrong file, and the wrong answer.
#[test]
fn wrong_time_lines_are_found() {
    let (one, other) = (times::file(3, b"@5"), times::file(8, b"@4"));
    let right = second::compare(&one, &other);
    assert!(later_by(right, right).is_ok());
    let copy = right.1.to_vec();
    assert!(later_by((Later::First, &copy), right).is_err());
    assert!(later_by((Later::First, &[]), right).is_err());
    assert!(later_by((Later::Second, right.1), right).is_err());
}

/// What is printed has the answers of both.
#[test]
fn a_difference_prints_both_answers() {
    let file = tour(8).bytes;
    let lie = |_: &[u8], _: &mut [u8]| Answer::Refused { number: 4, place: 77 };
    let text = found(read_by(&lie, &file)).to_string();
    assert!(text.contains("proved: Refused { number: 4, place: 77 }"), "{text}");
    assert!(text.contains("second: Refused { number: 11"), "{text}");
}

/// An edit that keeps the run, one that refuses at another place, and one that
/// copies the old file in.
#[test]
fn wrong_edits_are_found() {
    let mut file = vec![0; 400];
    let Answer::Done { bytes, .. } = second::write(&sheets::tour(), &mut file) else {
        panic!("the tour is a good sheet");
    };
    file.truncate(bytes);
    let cut = Edit { first: 1, count: 2, new: Vec::new() };
    let keeps =
        |file: &[u8], first, _, new: &[u8], out: &mut [u8]| second::edit(file, first, 0, new, out);
    found(edit_by(&keeps, &file, &cut));
    let copies = |file: &[u8], first, count, new: &[u8], out: &mut [u8]| {
        let answer = second::edit(file, first, count, new, out);
        if let Answer::Done { bytes, .. } = answer {
            out[..bytes].copy_from_slice(&file[..bytes]);
        }
        answer
    };
    assert!(found(edit_by(&copies, &file, &cut)).byte.is_some());
    let past = Edit { first: 99, count: 0, new: Vec::new() };
    let off = |file: &[u8], first, count, new: &[u8], out: &mut [u8]| match second::edit(
        file, first, count, new, out,
    ) {
        Answer::Refused { number: 15, place } => Answer::Refused { number: 15, place: place + 1 },
        other => other,
    };
    found(edit_by(&off, &file, &past));
}

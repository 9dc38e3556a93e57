//! Request #107: how much of the name before stayed.

mod common;

use common::*;
use second::*;

/// The items, closed, as a file. All files here end with a label that is not
/// empty (v3 to v7) or a style that is not normal (v8).
fn closed(version: u8, items: &[&[u8]]) -> Vec<u8> {
    file(version, b"A", b"@0", &[&items.concat()[..], &[0, 0]].concat())
}

/// The number kept of each record, alike whether or not steps are tried again.
fn kept(version: u8, items: &[&[u8]]) -> Vec<usize> {
    let file = closed(version, items);
    let numbers = kept_of(&file);
    let (steps, _) = steps(&file).unwrap();
    assert_eq!(steps.iter().map(|step| step.kept).collect::<Vec<_>>(), numbers);
    assert!(read_all(&file).is_ok());
    numbers
}

/// A v3 to v7 item that appends `add` (at most 253 bytes).
fn appending(code: u8, add: &[u8], end: usize) -> Vec<u8> {
    [&[code, add.len() as u8], add, &vec![0; end]].concat()
}

fn label(add: &[u8]) -> Vec<u8> {
    appending(0x40, add, 12)
}

fn line(add: &[u8]) -> Vec<u8> {
    appending(0x80, add, 12)
}

/// A v8 LABEL; `change` says D and A, in any form.
fn label_v8(change: &[u8], add: &[u8]) -> Vec<u8> {
    [&[0x80], change, add, &[0; 12]].concat()
}

const MOVE: [u8; 13] = [0x0f, 0, 0, 0, 0, 0, 0, 0, 0, 0, 0, 0, 0];
/// A v8 leg with 0x20.
const SAME_LABEL: [u8; 13] = [0x60, 0, 0, 0, 0, 0, 0, 0, 0, 0, 0, 0, 0];

fn error(version: u8) -> Vec<u8> {
    [&[if version == 8 { 0x1f } else { 0x22 }][..], &[0; 20]].concat()
}

#[test]
fn first_item_keeps_nothing() {
    for version in 3..=7 {
        assert_eq!(kept(version, &[&label(b"a.b")]), [0]);
        assert_eq!(kept(version, &[&MOVE, &line(b"a.b")]), [0]);
        assert_eq!(kept(version, &[&label(b""), &label(b"a")]), [0, 0]);
    }
    assert_eq!(kept(5, &[&appending(0x30, b"a", 8)]), [0]);
    assert_eq!(kept(5, &[&appending(0x32, b"a", 16)]), [0]);
    assert_eq!(kept(8, &[&label_v8(&[3], b"a.b")]), [0]);
    assert_eq!(kept(8, &[&label_v8(&[0, 0, 0], b"")]), [0]);
    assert_eq!(kept(8, &[&MOVE, &SAME_LABEL, &SAME_LABEL]), [0, 0]);
}

#[test]
fn emptied_between() {
    for version in 3..=7 {
        assert_eq!(kept(version, &[&label(b"abc"), &label(b"d")]), [0, 3]);
        assert_eq!(kept(version, &[&label(b"abc"), &[0x00], &label(b"abd")]), [0, 0]);
        // Longer than before, and still nothing was kept.
        assert_eq!(kept(version, &[&label(b"abc"), &[0x00], &label(b"abcd")]), [0, 0]);
    }
}

#[test]
fn shortened_in_a_row() {
    // 28 bytes: 10 leaves 27, 02 leaves `a.b.c.`, 11 leaves `a.b.`.
    let long = label(b"a.b.c.d.xxxxxxxxxxxxxxxxxxxx");
    for version in 3..=7 {
        assert_eq!(kept(version, &[&long, &[0x10], &label(b"z")]), [0, 27]);
        assert_eq!(kept(version, &[&long, &[0x10, 0x02], &label(b"z")]), [0, 6]);
        assert_eq!(kept(version, &[&long, &[0x10, 0x02, 0x11], &label(b"z")]), [0, 4]);
        assert_eq!(kept(version, &[&long, &[0x10, 0x02, 0x11], &label(b"")]), [0, 4]);
        assert_eq!(kept(version, &[&long, &[0x04], &label(b"z")]), [0, 2]);
        assert_eq!(kept(version, &[&long, &[0x1f, 0x1a], &label(b"z")]), [0, 1]);
        assert_eq!(kept(version, &[&long, &[0x10, 0x02, 0x00], &label(b"z")]), [0, 0]);
    }
}

#[test]
fn less_than_the_names_share() {
    for version in 3..=7 {
        assert_eq!(kept(version, &[&label(b"abc"), &[0x10], &label(b"c")]), [0, 2]);
        assert_eq!(kept(version, &[&label(b"abc"), &[0x11], &label(b"bcd")]), [0, 1]);
        assert_eq!(kept(version, &[&label(b"abc"), &[0x00], &label(b"abc")]), [0, 0]);
    }
    assert_eq!(kept(8, &[&label_v8(&[3], b"abc"), &label_v8(&[0x11], b"c")]), [0, 2]);
    assert_eq!(kept(8, &[&label_v8(&[3], b"abc"), &label_v8(&[0x33], b"abc")]), [0, 0]);
}

#[test]
fn drops_of_v8() {
    let after = |change: &[u8], add: &[u8]| {
        kept(8, &[&label_v8(&[5], b"abcde"), &label_v8(change, add)])[1]
    };
    // D = 0, with and without something to append.
    assert_eq!(after(&[0x02], b"fg"), 5);
    assert_eq!(after(&[0, 0, 2], b"fg"), 5);
    assert_eq!(after(&[0, 0, 0], b""), 5);
    // D = the whole label.
    assert_eq!(after(&[0x51], b"z"), 0);
    assert_eq!(after(&[0x50], b""), 0);
    assert_eq!(after(&[0, 5, 0], b""), 0);
    assert_eq!(after(&[0, 0xff, 5, 0, 0, 0, 5], b"abcde"), 0);
    // One byte 16D+A.
    assert_eq!(after(&[0x12], b"xy"), 4);
    assert_eq!(after(&[0x30], b""), 2);
    assert_eq!(after(&[0x4f], &[b'x'; 15]), 1);
}

#[test]
fn drops_from_the_longest_label() {
    let longest = label_v8(&[0, 0, 0xff, 0, 16, 0, 0], &[b'x'; 4096]);
    let after = |change: &[u8], add: &[u8]| kept(8, &[&longest, &label_v8(change, add)])[1];
    assert_eq!(after(&[0, 0, 0], b""), 4096);
    assert_eq!(after(&[0x11], b"x"), 4095);
    assert_eq!(after(&[0, 0xff, 0, 16, 0, 0, 0], b""), 0);
}

#[test]
fn same_label_leg() {
    let name = label_v8(&[3], b"abc");
    assert_eq!(kept(8, &[&name, &MOVE, &SAME_LABEL, &SAME_LABEL]), [0, 3, 3]);
    assert_eq!(kept(8, &[&name, &MOVE, &SAME_LABEL, &label_v8(&[0x10], b"")]), [0, 3, 2]);
}

#[test]
fn every_label_starts_a_new_stretch() {
    // Each number but the first is above the one before.
    let next = |code, end| appending(code, b"x", end);
    let items = [&label(b"abcd")[..], &MOVE, &[0x12], &next(0x30, 8), &next(0x33, 16)];
    let more = [&next(0x80, 12)[..], &next(0x87, 12), &next(0x5f, 12)];
    assert_eq!(kept(5, &[&items[..], &more].concat()), [0, 1, 2, 3, 4, 5]);
    let next = |code: u8, end| [&[code, 0x01, b'x'], &vec![0; end][..]].concat();
    let items = [&label_v8(&[4], b"abcd")[..], &MOVE, &label_v8(&[0x31], b"x"), &SAME_LABEL];
    let more = [&next(0x40, 12)[..], &next(0x31, 8), &next(0x32, 16), &next(0xff, 12)];
    assert_eq!(kept(8, &[&items[..], &more].concat()), [0, 1, 2, 2, 3, 4, 5]);
}

#[test]
fn error_between_two_names() {
    for version in 6..=7 {
        let (name, error) = (label(b"abcdef"), error(version));
        assert_eq!(kept(version, &[&error, &name, &error, &label(b"g")]), [0, 0, 0, 6]);
        assert_eq!(kept(version, &[&name, &[0x12], &error, &label(b"x")]), [0, 0, 3]);
        assert_eq!(kept(version, &[&name, &error, &[0x12], &label(b"x")]), [0, 0, 3]);
        let both_sides: [&[u8]; 6] = [&name, &[0x10], &error, &[0x11], &error, &label(b"x")];
        assert_eq!(kept(version, &both_sides), [0, 0, 0, 3]);
        assert_eq!(kept(version, &[&name, &[0x00], &error, &label(b"abc")]), [0, 0, 0]);
    }
    let (name, error) = (label_v8(&[3], b"abc"), error(8));
    assert_eq!(kept(8, &[&error, &name, &error, &label_v8(&[0x11], b"d")]), [0, 0, 0, 2]);
    assert_eq!(kept(8, &[&name, &MOVE, &error, &SAME_LABEL]), [0, 0, 3]);
}

#[test]
fn moves_dates_and_styles_between() {
    let name = label(b"abcdef");
    assert_eq!(kept(3, &[&MOVE, &name, &MOVE, &[0x10], &MOVE, &label(b"g")]), [0, 5]);
    let seconds: &[u8] = &[0x20, 0, 0, 0, 0];
    for version in 4..=6 {
        assert_eq!(kept(version, &[&name, seconds, &[0x11], seconds, &label(b"g")]), [0, 4]);
    }
    let dates: [&[u8]; 4] = [&[0x20, 1, 0], &[0x21, 1, 0, 1], &[0x23, 1, 0, 2, 0], &[0x24]];
    for date in dates {
        assert_eq!(kept(7, &[date, &name, date, &[0x12], &MOVE, &label(b"g")]), [0, 3]);
    }
    let name = label_v8(&[3], b"abc");
    let states: [&[u8]; 10] = [
        &[0x00],
        &[0x01],
        &[0x02],
        &[0x03],
        &[0x04],
        &[0x10],
        &[0x11, 1, 0],
        &[0x12, 1, 0, 1],
        &[0x13, 1, 0, 2, 0],
        &MOVE,
    ];
    // The last style is not normal, so that the closing codes are two.
    for state in states {
        assert_eq!(kept(8, &[&name, state, &[0x01], &label_v8(&[0x01], b"d")]), [0, 3]);
        assert_eq!(kept(8, &[&name, state, &[0x01], &label_v8(&[0x21], b"d")]), [0, 1]);
    }
}

#[test]
fn the_same_after_11() {
    let file = closed(3, &[&label(b"abc"), &[0x10], &label(b"de")]);
    let (mut stepper, _) = open(&file);
    let mut out = [FILLER; 24];
    let small = |needed| Step::Refused { number: 11, place: needed };
    assert_eq!(stepper.step(&mut out[..18]), small(19));
    assert_eq!(stepper.step(&mut out), Step::Record { bytes: 19, kept: 0 });
    assert_eq!(stepper.step(&mut []), Step::Nothing);
    let before = out;
    for room in [0, 19, 0] {
        assert_eq!(stepper.step(&mut out[..room]), small(20));
    }
    assert_eq!(out, before);
    assert_eq!(stepper.step(&mut out[..20]), Step::Record { bytes: 20, kept: 2 });
    assert_eq!(out[..20], station(b"abde").bytes());
    assert_eq!(out[20..], [FILLER; 4]);
    assert_eq!(stepper.step(&mut []), Step::Nothing);
    assert_eq!(stepper.step(&mut []), Step::End);
}

#[test]
fn the_same_after_11_for_a_same_label_leg() {
    let file = closed(8, &[&label_v8(&[2], b"ab"), &MOVE, &SAME_LABEL]);
    let (mut stepper, _) = open(&file);
    let mut out = [FILLER; 40];
    assert_eq!(stepper.step(&mut out), Step::Record { bytes: 18, kept: 0 });
    assert_eq!(stepper.step(&mut out), Step::Nothing);
    for _ in 0..2 {
        assert_eq!(stepper.step(&mut out[..35]), Step::Refused { number: 11, place: 36 });
    }
    assert_eq!(stepper.step(&mut out[..36]), Step::Record { bytes: 36, kept: 2 });
}

#[test]
fn refused_items_answer_no_number() {
    let long = [b'x'; 253];
    let labels: Vec<Vec<u8>> = (0..17).map(|_| label(&long)).collect();
    let labels: Vec<&[u8]> = labels.iter().map(Vec::as_slice).collect();
    let (name, name_v8) = (label(b"abc"), label_v8(&[3], b"abc"));
    let cases: [(u8, Vec<&[u8]>, u8); 7] = [
        (3, vec![&name, &[0x60]], 4),
        (3, vec![&name, &[0x40, 9]], 5),
        (3, vec![&name, &[0x12]], 6),
        (8, vec![&name_v8, &[0x80, 0x41, b'x', 0, 0, 0, 0, 0, 0, 0, 0, 0, 0, 0, 0]], 6),
        (3, labels, 7),
        (3, vec![&name, &[0x80, 1, b'd', 0, 0, 0, 0, 0, 0, 0, 0, 0, 0, 0, 0]], 8),
        (8, vec![&name_v8, &SAME_LABEL], 8),
    ];
    for (version, items, number) in cases {
        let file = file(version, b"A", b"@0", &items.concat());
        let place = file.len() - items.last().unwrap().len();
        let (mut stepper, _) = open(&file);
        let mut out = [FILLER; 4130];
        for _ in 1..items.len() {
            assert!(matches!(stepper.step(&mut out), Step::Record { .. }));
        }
        let mut rest = [FILLER; 4130];
        for _ in 0..3 {
            assert_eq!(stepper.step(&mut rest), Step::Refused { number, place });
        }
        assert_eq!(rest, [FILLER; 4130]);
    }
}

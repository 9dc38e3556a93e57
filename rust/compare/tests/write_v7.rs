//! Writing v7: generated and damaged sheets as they are, most of which v7 cannot carry,
//! and each without what it cannot; at several buffer lengths. What is written reads
//! back as the same sheet, in version 2, with style normal as not said.

use compare::{disagree, proved, seed, sheets_wanted, Tally};
use generate::record::{for_v7, header, sheet_of, station, v7_twin, Leg};
use generate::record::{VERSION_1, VERSION_2};
use generate::sheets::{fixed, round};
use generate::SheetKind;
use second::Answer;

fn try_sheet(tally: &mut Tally<SheetKind>, what: &str, kind: SheetKind, sheet: &[u8]) -> Answer {
    match compare::write_v7(sheet) {
        Ok(answer) => {
            if let Answer::Done { bytes, records, .. } = answer {
                reads_back(what, sheet, bytes, records);
            }
            tally.count(kind, answer);
            answer
        }
        Err(difference) => {
            disagree(&format!("writing {what} as v7 ({kind:?})"), sheet, &difference)
        }
    }
}

/// Write, then read: the v7 twin, by both; an edit of the file is refused with 14.
fn reads_back(what: &str, sheet: &[u8], bytes: usize, records: usize) {
    let mut file = vec![0; bytes];
    proved::write_v7(sheet, &mut file);
    if let Err(difference) = compare::read(&file) {
        disagree(&format!("reading the v7 file of {what}"), &file, &difference);
    }
    let due = v7_twin(sheet);
    let mut again = vec![0; due.len()];
    let answer = proved::read(&file, &mut again);
    assert_eq!(answer, Answer::Done { bytes: due.len(), records, version: 7 }, "{what}");
    assert_eq!(again, due, "{what}");
    let edited = proved::edit(&file, 0, 0, &[], &mut vec![0; bytes + 9]);
    assert_eq!(edited, Answer::Refused { number: 14, place: 0 }, "{what}");
}

#[test]
fn sheets_are_written_as_v7_alike() {
    let mut tally = Tally::default();
    let mut each = |what: &str, kind: SheetKind, sheet: &[u8]| {
        try_sheet(&mut tally, what, kind, sheet);
        let answer = try_sheet(&mut tally, &format!("{what}, for v7,"), kind, &for_v7(sheet));
        let good = matches!(answer, Answer::Done { .. });
        assert!(good || kind != SheetKind::Good, "{what} is no good sheet for v7: {answer:?}");
        tally.total()
    };
    for (number, (kind, sheet)) in fixed().enumerate() {
        each(&format!("fixed sheet {number}"), kind, &sheet);
    }
    let mut total = 0;
    for number in 0.. {
        if total >= sheets_wanted() {
            break;
        }
        for (kind, sheet) in round(seed(), number) {
            total = each(&format!("a sheet of round {number}"), kind, &sheet);
        }
    }
    tally.print("sheets written as v7");
    tally.must_have_seen(&[0, 12, 23]);
}

/// 12 anywhere before 23; 23 of the header before that of a record, at place 0; else the first
/// record that v7 cannot carry.
#[test]
fn what_v7_cannot_carry() {
    let leg = |style| Leg { style, ..Leg::plain(b"a.1") }.body();
    let place = |flags| station(flags, [0; 3], b"a.2");
    let bad = vec![9];
    let answer = |version, extended, records: &[Vec<u8>]| {
        let sheet = sheet_of(version, &[&[header(extended, b"A", b"@0")], records].concat());
        match compare::write_v7(&sheet) {
            Err(difference) => disagree("writing v7", &sheet, &difference),
            Ok(Answer::Refused { number, place }) => Some((number, place)),
            Ok(Answer::Done { .. }) => None,
        }
    };
    for version in [VERSION_1, VERSION_2] {
        for style in 0..=5 {
            let first = if matches!(style, 1..=4) { 1 } else { 2 };
            assert_eq!(answer(version, 0, &[leg(5), leg(style), leg(1)]), Some((23, first)));
        }
        for flags in 0..0x80 {
            let due = (flags >= 0x20).then_some((23, 2));
            assert_eq!(answer(version, 0, &[leg(0), leg(5), place(flags)]), due);
        }
        assert_eq!(answer(version, 1, &[leg(0), leg(3)]), Some((23, 0)));
        assert_eq!(answer(version, 1, &[]), Some((23, 0)));
        assert_eq!(answer(version, 1, &[leg(3), leg(0), bad.clone()]), Some((12, 2)));
        assert_eq!(answer(version, 0, &[leg(3), bad.clone()]), Some((12, 1)));
    }
}

//! Writing: at least 100,000 sheets, each at several buffer lengths; what is
//! written reads back as the same sheet, in version 2.

use compare::{disagree, proved, seed, sheets_wanted, Tally};
use generate::record::twin;
use generate::sheets::{fixed, round};
use generate::SheetKind;
use second::Answer;

fn try_sheet(tally: &mut Tally<SheetKind>, what: &str, kind: SheetKind, sheet: &[u8]) {
    match compare::write(sheet) {
        Ok(answer) => {
            let good = matches!(answer, Answer::Done { .. });
            assert!(good || kind != SheetKind::Good, "{what} is no good sheet: {answer:?}");
            if let Answer::Done { bytes, records, .. } = answer {
                reads_back(what, sheet, bytes, records);
            }
            tally.count(kind, answer);
        }
        Err(difference) => disagree(&format!("writing {what} ({kind:?})"), sheet, &difference),
    }
}

/// Write, then read: the same sheet, by both, or the version 2 twin of a version 1 sheet.
fn reads_back(what: &str, sheet: &[u8], bytes: usize, records: usize) {
    let mut file = vec![0; bytes];
    proved::write(sheet, &mut file);
    if let Err(difference) = compare::read(&file) {
        disagree(&format!("reading what is written for {what}"), &file, &difference);
    }
    let due = twin(sheet);
    let mut again = vec![0; due.len()];
    let answer = proved::read(&file, &mut again);
    assert_eq!(answer, Answer::Done { bytes: due.len(), records, version: 8 }, "{what}");
    assert_eq!(again, due, "{what}");
}

#[test]
fn sheets_are_written_alike() {
    let mut tally = Tally::default();
    for (number, (kind, sheet)) in fixed().enumerate() {
        try_sheet(&mut tally, &format!("fixed sheet {number}"), kind, &sheet);
    }
    for number in 0.. {
        if tally.total() >= sheets_wanted() {
            break;
        }
        for (kind, sheet) in round(seed(), number) {
            try_sheet(&mut tally, &format!("a sheet of round {number}"), kind, &sheet);
        }
    }
    tally.print("sheets written");
    tally.must_have_seen(&[0, 12, 13]);
}

//! Editing: at least 200,000 edits, each at several buffer lengths. What an
//! edit writes is house-written again.

use compare::{disagree, edits_wanted, proved, seed, Tally};
use generate::edits::round;
use generate::sheets::{self, records_of};
use generate::{files, record, Edit, EditKind, Rng, SheetKind};
use second::Answer;

fn try_edit(tally: &mut Tally<EditKind>, what: &str, kind: EditKind, file: &[u8], edit: &Edit) {
    match compare::edit(file, edit) {
        Ok(answer) => {
            if let Answer::Done { bytes, records, .. } = answer {
                stays(what, file, edit, bytes, records);
            }
            let due: &[u8] = match kind {
                EditKind::Good => &[13],
                EditKind::Past => &[15],
                _ => return tally.count(kind, answer),
            };
            let as_due = match answer {
                Answer::Done { .. } => kind == EditKind::Good,
                Answer::Refused { number, .. } => due.contains(&number),
            };
            assert!(as_due, "{what} ({kind:?}): {answer:?}");
            tally.count(kind, answer);
        }
        Err(difference) => disagree(&format!("{what} ({kind:?}, {edit:?})"), file, &difference),
    }
}

/// An edit of the new file that changes nothing gives the same file.
fn stays(what: &str, file: &[u8], edit: &Edit, bytes: usize, records: usize) {
    let mut new = vec![0; bytes];
    proved::edit(file, edit.first, edit.count, &edit.new, &mut new);
    let mut again = vec![0; bytes];
    let answer = proved::edit(&new, records, 0, &[], &mut again);
    assert_eq!(answer, Answer::Done { bytes, records, version: 8 }, "{what}");
    assert_eq!(again, new, "{what}");
}

/// The file that the second implementation writes, and its record count.
fn written(sheet: &[u8]) -> Option<(Vec<u8>, usize)> {
    let mut file = vec![0; sheet.len() + 200];
    match second::write(sheet, &mut file) {
        Answer::Done { bytes, records, .. } => {
            file.truncate(bytes);
            Some((file, records))
        }
        Answer::Refused { .. } => None,
    }
}

/// A good sheet of the round, written, with its edits; and edits of files
/// that are damaged or were written by others.
fn try_round(tally: &mut Tally<EditKind>, number: u64) {
    let mut rng = Rng::new(seed(), number);
    let what = format!("an edit of round {number}");
    for (kind, sheet) in sheets::round(seed(), number) {
        if kind != SheetKind::Good {
            continue;
        }
        let Some((file, records)) = written(&sheet) else { continue };
        for (kind, edit) in round(&mut rng, records) {
            try_edit(tally, &what, kind, &file, &edit);
        }
    }
    for (_, file) in files::round(seed(), number).into_iter().step_by(5) {
        let new = record::sheet(&records_of(&mut rng))[1..].to_vec();
        let edit = Edit { first: rng.below(3), count: rng.below(3), new };
        try_edit(tally, &what, EditKind::Foreign, &file, &edit);
    }
}

/// Every record of the tour out, every one in before each, and every byte of
/// its file changed.
#[test]
fn the_tour_is_edited_alike() {
    let mut tally = Tally::default();
    let (file, records) = written(&sheets::tour()).expect("a good sheet");
    let mut rng = Rng::new(seed(), 0);
    for first in 0..=records {
        for count in 0..=records - first {
            let edit = Edit { first, count, new: Vec::new() };
            try_edit(&mut tally, "a cut of the tour", EditKind::Good, &file, &edit);
            for new in [records_of(&mut rng), records_of(&mut rng)] {
                let edit = Edit { first, count, new: generate::edits::laid(&new) };
                try_edit(&mut tally, "an edit of the tour", EditKind::Good, &file, &edit);
            }
        }
    }
    for changed in generate::damage::changes(&file) {
        let edit = Edit { first: 1, count: 1, new: Vec::new() };
        try_edit(&mut tally, "an edit of a changed tour", EditKind::Foreign, &changed, &edit);
    }
    tally.print("edits of the tour");
    tally.must_have_seen(&[0, 4, 5, 13, 14]);
}

#[test]
fn files_are_edited_alike() {
    let mut tally = Tally::default();
    for number in 0.. {
        if tally.total() >= edits_wanted() {
            break;
        }
        try_round(&mut tally, number);
    }
    tally.print("edits");
    tally.must_have_seen(&[0, 4, 5, 12, 13, 14, 15]);
}

//! Generated sheets and files: whatever way a sheet is coded, reading gives
//! it back; writing, stepping and editing agree with reading.

mod common;

use common::made::*;
use common::*;
use second::*;

#[test]
fn any_coding_reads_to_its_sheet() {
    let mut rng = Rng(0x3d_1900_0101);
    for round in 0..6000 {
        let version = 3 + (round % 6) as u8;
        let records = records(&mut rng, version);
        let coded = file(version, b"A", b"@0", &items(&mut rng, version, &records));
        let sheet = sheet(&records);
        assert_eq!(read_all(&coded), Ok((sheet.clone(), records.len(), version)), "{round}");
        let ours = write_all(&sheet).unwrap();
        assert_eq!(read_all(&ours), Ok((sheet.clone(), records.len(), 8)), "{round}");
        assert!(version < 8 || ours.len() <= coded.len() + records.len(), "{round}");
        let mut lent = vec![FILLER; sheet.len()];
        let (converted, count, made) =
            watched(|out| convert(&coded, &mut lent.clone(), out)).unwrap();
        assert_eq!((converted, count, made), (ours.clone(), records.len(), 8));
        convert(&coded, &mut lent, &mut []);
        assert_eq!(lent, sheet);
    }
}

/// The numbers kept as `steps` finds them, which watches that the names before
/// and after agree on them.
fn watched_kept(file: &[u8]) -> Vec<usize> {
    steps(file).unwrap().0.iter().map(|step| step.kept).collect()
}

#[test]
fn kept_is_the_least_length_since_the_name_before() {
    let mut rng = Rng(0x0107_6e61_6d65);
    let mut seen = [[0; 3]; 9];
    for round in 0..12_000 {
        let version = 3 + (round % 6) as u8;
        let records = records(&mut rng, version);
        let (items, kept) = coded(&mut rng, version, &records);
        let coded = file(version, b"A", b"@0", &items);
        assert_eq!(kept_of(&coded), kept, "{round}");
        assert_eq!(watched_kept(&coded), kept, "{round}");
        for (number, shared) in kept.into_iter().zip(shared(&records)) {
            let how = if number == 0 { 0 } else { 1 + usize::from(number < shared) };
            seen[usize::from(version)][how] += 1;
        }
    }
    // Nothing kept, all that is shared, and less than that, in every version.
    assert!(seen[3..].iter().flatten().all(|&count| count > 300), "{seen:?}");
}

#[test]
fn written_files_keep_all_that_is_shared() {
    let mut rng = Rng(0x0107_0008);
    let mut forced = 0;
    for round in 0..3000 {
        let records = records(&mut rng, 8);
        let ours = write_all(&sheet(&records)).unwrap();
        let (mut kept, mut before) = (shared(&records), &[][..]);
        for (number, record) in kept.iter_mut().zip(&records) {
            let Some(label) = record.label() else { continue };
            // The same name takes D = A = 1, but in a leg.
            let leg = matches!(record, Rec::Leg { .. });
            if !leg && label == before && !label.is_empty() {
                *number -= 1;
                forced += 1;
            }
            before = label;
        }
        assert_eq!(watched_kept(&ours), kept, "{round}");
    }
    assert!(forced > 300, "{forced}");
}

#[test]
fn version_1_sheets_read_back_as_their_twins() {
    let mut rng = Rng(0x7717_0106);
    let mut taken_back = 0;
    for round in 0..4000 {
        let dated = records(&mut rng, 8);
        let undated = undated_sections(dated.clone());
        let (old, new) = (sheet_v1(&dated), sheet(&undated));
        assert_eq!(twin(&old), new);
        let file = write_all(&old).unwrap();
        assert_eq!(write_all(&new).as_ref(), Ok(&file), "{round}");
        assert_eq!(read_all(&file), Ok((new, undated.len(), 8)), "{round}");
        taken_back += usize::from(dated != undated);
    }
    // Many sheets must have had a dated section to lose its date.
    assert!(taken_back > 500, "{taken_back}");
}

#[test]
fn edits_write_the_spliced_sheet() {
    let mut rng = Rng(0x5eed_0e17);
    let mut counts = [0; 4];
    for round in 0..4000 {
        let old = records(&mut rng, 8);
        let new = records(&mut rng, 8);
        let ours = write_all(&sheet(&old)).unwrap();
        let first = rng.below(old.len() + 1);
        let count = rng.below(old.len() - first + 1);
        let mut spliced = old.clone();
        spliced.splice(first..first + count, new.iter().cloned());
        let replacement = joined(&new);
        let edited = watched(|out| edit(&ours, first, count, &replacement, out));
        let expected = watched(|out| write(&sheet(&spliced), out));
        assert_eq!(edited, expected, "{round}");
        counts[if edited.is_ok() { 0 } else { 1 }] += 1;
        // A file in another coding is refused by 14, unless it is ours.
        let loose = v8(&items(&mut rng, 8, &old));
        let answer = watched(|out| edit(&loose, first, count, &replacement, out));
        assert_eq!(answer, if loose == ours { expected } else { Err((14, 0)) });
        counts[if loose == ours { 2 } else { 3 }] += 1;
    }
    // Both sides of each choice must have been seen.
    assert!(counts.iter().all(|&count| count > 50), "{counts:?}");
}

#[test]
fn spoiled_files_answer_alike() {
    let mut rng = Rng(0xbad_f11e);
    let mut seen = [0; 18];
    for round in 0..40_000 {
        let version = 3 + (round % 6) as u8;
        let records = records(&mut rng, version);
        let mut spoiled = file(version, b"A", b"@0", &items(&mut rng, version, &records));
        spoil_file(&mut rng, &mut spoiled);
        // `read_all` watches the memory and compares with the stepper.
        match read_all(&spoiled) {
            Ok((sheet, count, _)) => {
                // Neither 12 nor 13: reading made the sheet.
                let ours = write_all(&sheet).unwrap();
                let mut lent = vec![FILLER; sheet.len()];
                let converted = watched(|out| convert(&spoiled, &mut lent.clone(), out));
                assert_eq!(converted, Ok((ours.clone(), count, 8)), "{round}");
                convert(&spoiled, &mut lent, &mut []);
                assert_eq!(lent, sheet, "{round}");
                assert_eq!(read_all(&ours), Ok((sheet, count, 8)), "{round}");
                seen[0] += 1;
            }
            Err((number, place)) => {
                let converted = watched(|out| convert(&spoiled, &mut [FILLER; 4200], out));
                assert_eq!(converted, Err((number, place)), "{round}");
                assert!(place <= spoiled.len());
                seen[usize::from(number)] += 1;
            }
        }
    }
    assert!([0, 1, 2, 3, 4, 5, 6, 7, 8, 9, 10].iter().all(|&number| seen[number] > 0), "{seen:?}");
}

#[test]
fn spoiled_sheets_are_written_only_if_good() {
    let mut rng = Rng(0x5ee7_5ee7);
    let (mut good, mut bad) = (0, 0);
    for _ in 0..40_000 {
        let records = records(&mut rng, 8);
        let mut spoiled = if rng.chance(3) { sheet_v1(&records) } else { sheet(&records) };
        spoil_sheet(&mut rng, &mut spoiled);
        match write_all(&spoiled) {
            Ok(file) => {
                assert_eq!(read_all(&file).unwrap().0, twin(&spoiled));
                good += 1;
            }
            Err((number, place)) => {
                assert!(number == 12 || number == 13);
                assert!(place <= records.len() + 400);
                bad += 1;
            }
        }
    }
    assert!(good > 1000 && bad > 1000, "{good} {bad}");
}

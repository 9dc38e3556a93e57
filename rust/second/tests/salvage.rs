//! Request #111: what can be saved of a broken file.

mod common;

use common::made::*;
use common::*;
use second::*;

/// The report: the refusal and its place, and the bytes from there on.
type Report = (u8, usize, usize);

/// The sheet, its record count and the report, with every lent byte watched;
/// or the refusal of the call.
fn salvage_all(file: &[u8]) -> Result<(Vec<u8>, usize, Report), (u8, usize)> {
    let reports = std::cell::RefCell::new(Vec::new());
    let (sheet, records, version) = watched(|sheet| match salvage(file, sheet) {
        Salvaged::Saved { bytes, records, version, number, place, left } => {
            reports.borrow_mut().push((number, place, left));
            Answer::Done { bytes, records, version }
        }
        Salvaged::Refused { number, place } => refused(number, place),
    })?;
    let reports = reports.into_inner();
    assert!(reports.iter().all(|report| *report == reports[0]), "{reports:?}");
    assert_eq!(version, file[22] - b'0');
    Ok((sheet, records, reports[0]))
}

/// The records before the refusal as stepping finds them, and the refusal.
fn stepped_before(file: &[u8]) -> (Vec<Vec<u8>>, (u8, usize)) {
    let (mut stepper, _) = open(file);
    let mut records = Vec::new();
    loop {
        let mut buffer = vec![FILLER; 4130];
        match stepper.step(&mut buffer) {
            Step::Record { bytes, .. } => records.push(buffer[..bytes].to_vec()),
            Step::Nothing => {}
            Step::End => return (records, (0, file.len())),
            Step::Refused { number, place } => return (records, (number, place)),
        }
    }
}

#[test]
fn whole_files() {
    let sheet = vec![0x02, 0x00, 0x07, 0x00, 0x00, 0x00, 0x01, 0x41, 0x40, 0x30];
    assert_eq!(salvage_all(&v8(&[0, 0])), Ok((sheet, 0, (0, 32, 0))));
    let sheet = vec![0x02, 0x00, 0x06, 0x00, 0x00, 0x00, 0x01, 0x41, 0x54];
    assert_eq!(salvage_all(&old(3, &[0])), Ok((sheet, 0, (0, 29, 0))));
    let mut out = [FILLER; 12];
    let saved =
        Salvaged::Saved { bytes: 10, records: 0, version: 8, number: 0, place: 32, left: 0 };
    assert_eq!(salvage(&v8(&[0, 0]), &mut out), saved);
    assert_eq!(out, [2, 0, 7, 0, 0, 0, 1, b'A', b'@', b'0', FILLER, FILLER]);
}

#[test]
fn no_end_and_bytes_after_it() {
    let sheet_of = |records: &[Rec]| sheet(records);
    assert_eq!(salvage_all(&v8(&[0])), Ok((sheet_of(&[]), 0, (5, 31, 0))));
    assert_eq!(salvage_all(&v8(&[])), Ok((sheet_of(&[]), 0, (5, 30, 0))));
    assert_eq!(salvage_all(&v8(&[0, 0, 9])), Ok((sheet_of(&[]), 0, (10, 32, 1))));
    let label = [&[0x80, 1, b'a'][..], &[0; 12]].concat();
    let items = |end: &[u8]| v8(&[&label[..], end].concat());
    let one = || sheet_of(&[station(b"a")]);
    assert_eq!(salvage_all(&items(&[])), Ok((one(), 1, (5, 45, 0))));
    assert_eq!(salvage_all(&items(&[0])), Ok((one(), 1, (5, 46, 0))));
    assert_eq!(salvage_all(&items(&[0, 0])), Ok((one(), 1, (0, 47, 0))));
    assert_eq!(salvage_all(&items(&[0, 0, 0])), Ok((one(), 1, (10, 47, 1))));
    // A whole item after the end makes no record.
    let more = [&[0, 0], &label[..]].concat();
    assert_eq!(salvage_all(&items(&more)), Ok((one(), 1, (10, 47, 15))));
}

#[test]
fn refusals_of_the_call() {
    assert_eq!(salvage_all(b""), Err((1, 0)));
    assert_eq!(salvage_all(b"Survex 3D Image File"), Err((1, 0)));
    assert_eq!(salvage_all(b"Survex 3D Image File\nv9\nA\nT\n"), Err((2, 21)));
    assert_eq!(salvage_all(b"Survex 3D Image File\nv8\nA"), Err((3, 24)));
    assert_eq!(salvage_all(b"Survex 3D Image File\nv8\nA\n@0"), Err((3, 26)));
    assert_eq!(salvage_all(b"Survex 3D Image File\nv8\nA\n@0\n"), Err((3, 29)));
    assert_eq!(salvage_all(b"Survex 3D Image File\nv8\nA\n@0\n\x01"), Err((4, 29)));
    let empty = sheet_with(1, b"A", b"@0", &[]);
    let extended = b"Survex 3D Image File\nv8\nA\n@0\n\x80";
    assert_eq!(salvage_all(extended), Ok((empty, 0, (5, 30, 0))));
    let mut large = v8(&[0, 0]);
    large.resize(16_777_217, 0);
    let no_16 = Salvaged::Refused { number: 16, place: 0 };
    assert_eq!(salvage(&large, &mut []), no_16);
    large.pop();
    let left = 16_777_216 - 32;
    assert_eq!(salvage_all(&large), Ok((sheet(&[]), 0, (10, 32, left))));
}

#[test]
fn every_refusal_at_an_item_becomes_the_report() {
    let label = [&[0x40, 3][..], b"abc", &[0; 12]].concat();
    let long = [&[0x40, 0xfe, 0x00, 0x0f], &[b'x'; 4094][..], &[0; 12]].concat();
    let line = [&[0x80, 0][..], &[0; 12]].concat();
    let rows: [(u8, &[u8], u8); 9] = [
        (7, &[0x60], 4),
        (3, &[0x20, 0, 0, 0, 0], 4),
        (3, &[0x40, 9, b'd'], 5),
        (3, &[0x0f, 1, 2], 5),
        (3, &[0x12], 6),
        (3, &[0x01], 6),
        (3, &long, 7),
        (7, &[0x23, 5, 0, 4, 0], 9),
        (3, &line, 8),
    ];
    for (version, bad, number) in rows {
        // What comes after is not read, whole or not.
        for after in [&[][..], &label, &[0, 0], &[0xff; 7]] {
            if number == 5 && !after.is_empty() {
                continue;
            }
            let file = file(version, b"A", b"@0", &[&label[..], bad, after].concat());
            let report = (number, 29 + 17, bad.len() + after.len());
            let saved = (sheet(&[station(b"abc")]), 1, report);
            assert_eq!(salvage_all(&file), Ok(saved), "{number}");
            assert_eq!(read_all(&file), Err((number, 29 + 17)));
        }
    }
}

#[test]
fn refused_items_of_v8() {
    let label = [&[0x80, 3][..], b"abc", &[0; 12]].concat();
    let there = [&[0x60][..], &[0; 12]].concat();
    let too_short = [&[0x80, 0x41, b'x'][..], &[0; 12]].concat();
    let rows: [(&[u8], u8); 6] = [
        (&[0x05], 4),
        (&[0x48], 4),
        (&[0x13, 1, 0], 5),
        (&too_short, 6),
        (&[0x12, 0xff, 0xff, 1], 9),
        (&there, 8),
    ];
    for (bad, number) in rows {
        let items = [&[0x01][..], &label, &[0x11, 7, 0], bad].concat();
        let saved = (sheet(&[station(b"abc")]), 1, (number, 30 + 1 + 17 + 3, bad.len()));
        assert_eq!(salvage_all(&v8(&items)), Ok(saved), "{number}");
    }
}

#[test]
fn no_11_is_last_with_the_length_needed() {
    let label = [&[0x40, 3][..], b"abc", &[0; 12]].concat();
    let broken = old(3, &[&label[..], &[0x60], &label].concat());
    let mut out = [FILLER; 40];
    let no_11 = Salvaged::Refused { number: 11, place: 28 };
    assert_eq!(salvage(&broken, &mut out[..27]), no_11);
    assert_eq!(salvage(&broken, &mut []), no_11);
    assert_eq!(out, [FILLER; 40]);
    let saved =
        Salvaged::Saved { bytes: 28, records: 1, version: 3, number: 4, place: 45, left: 18 };
    assert_eq!(salvage(&broken, &mut out), saved);
    assert_eq!(out[..28], sheet_with(0, b"A", b"T", &[station(b"abc")]));
    assert_eq!(out[28..], [FILLER; 12]);
    // Ordinary reading still refuses the item, whatever the room.
    assert_eq!(read(&broken, &mut []), refused(4, 45));
}

/// The end of an item, and how many records stand before it.
type End = (usize, usize);

/// A v7 and a v8 file of every record kind, with the ends of their items, the
/// header's end first.
fn ended_items() -> [(Vec<u8>, Vec<End>); 2] {
    let point: &[u8] = &[1, 0, 0, 0, 2, 0, 0, 0, 3, 0, 0, 0];
    let five: &[u8] = &[9; 20];
    let v7_items: [(Vec<u8>, usize); 10] = [
        (vec![0x20, 7, 0], 0),
        ([&[0x0f], point].concat(), 0),
        ([&[0x80, 2, b'a', b'b'], point].concat(), 1),
        (vec![0x10], 0),
        ([&[0x41, 1, b'c'], point].concat(), 1),
        ([&[0x22], five].concat(), 1),
        (vec![0x31, 0, 1, 0, 2, 0, 3, 0, 4, 0], 1),
        (vec![0x24], 0),
        (vec![0x00], 0),
        (vec![0x00], 0),
    ];
    let v8_items: [(Vec<u8>, usize); 8] = [
        (vec![0x00], 0),
        (vec![0x12, 7, 0, 1], 0),
        ([&[0x0f], point].concat(), 0),
        ([&[0x40, 2, b'a', b'b'], point].concat(), 1),
        ([&[0xff, 0x11, b'c'], point].concat(), 1),
        ([&[0x1f], five].concat(), 1),
        (vec![0x30, 0x11, b'd', 1, 0, 2, 0, 3, 0, 4, 0], 1),
        (vec![0x00], 0),
    ];
    [(7, v7_items.to_vec()), (8, v8_items.to_vec())].map(|(version, items)| {
        let mut all = file(version, b"A", b"@0", &[]);
        let mut ends = vec![(all.len(), 0)];
        for (item, made) in items {
            all.extend(item);
            ends.push((all.len(), ends.last().unwrap().1 + made));
        }
        (all, ends)
    })
}

#[test]
fn every_cut_keeps_the_whole_items_before_it() {
    for (file, ends) in ended_items() {
        let (sheet, records, _) = read_all(&file).unwrap();
        let (steps, _) = steps(&file).unwrap();
        assert_eq!(records, ends.last().unwrap().1);
        for cut in ends[0].0..file.len() {
            let &(place, kept) = ends.iter().rfind(|(end, _)| *end <= cut).unwrap();
            let lost: usize = steps[kept..].iter().map(|step| step.record.len()).sum();
            let saved = sheet[..sheet.len() - lost].to_vec();
            let report = (5, place, cut - place);
            assert_eq!(salvage_all(&file[..cut]), Ok((saved, kept, report)), "{cut}");
        }
        let whole = (sheet, records, (0, file.len(), 0));
        assert_eq!(salvage_all(&file), Ok(whole));
        for cut in 0..ends[0].0 {
            assert_eq!(salvage_all(&file[..cut]).err(), read_all(&file[..cut]).err());
        }
    }
}

/// What salvaging must give by reading and stepping.
fn watch_salvaged(file: &[u8]) -> u8 {
    let read = read_all(file);
    let saved = salvage_all(file);
    if let Opened::Refused { number, place } = open(file).1 {
        assert_eq!(saved, Err((number, place)));
        return number;
    }
    let (sheet, records, (number, place, left)) = saved.unwrap();
    assert_eq!(left, file.len() - place);
    let (before, refusal) = stepped_before(file);
    assert_eq!((records, (number, place)), (before.len(), refusal));
    let header = 3 + usize::from(u16::from_be_bytes([sheet[1], sheet[2]]));
    assert_eq!(sheet[header..], before.concat());
    // What was saved is a good sheet, and reads back from a file of its own.
    let again = write_all(&sheet).unwrap();
    assert_eq!(read_all(&again), Ok((sheet.clone(), records, 8)));
    match read {
        Ok((whole, ..)) => assert_eq!((whole, number, place), (sheet, 0, file.len())),
        Err(refusal) => assert_eq!(refusal, (number, place)),
    }
    number
}

#[test]
fn spoiled_files_keep_what_stepping_finds() {
    let mut rng = Rng(0x0111_5a1e);
    let mut seen = [0; 18];
    for round in 0..24_000 {
        let version = 3 + (round % 6) as u8;
        let records = records(&mut rng, version);
        let mut spoiled = file(version, b"A", b"@0", &items(&mut rng, version, &records));
        match rng.below(4) {
            0 => spoiled.truncate(rng.below(spoiled.len() + 1)),
            1 => spoiled.extend((0..rng.below(4)).map(|byte| byte as u8)),
            _ => spoil_file(&mut rng, &mut spoiled),
        }
        seen[usize::from(watch_salvaged(&spoiled))] += 1;
    }
    assert!([0, 1, 2, 3, 4, 5, 6, 7, 8, 9, 10].iter().all(|&number| seen[number] > 0), "{seen:?}");
}

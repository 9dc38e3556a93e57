//! Each refusal of document 01, as a person meets it: its number, its place with what
//! that counts, its words, and what to do.

mod common;
use cli::refusals::{hint, told, unit};
use cockledrift::Refusal;
use common::{folder, run_in, small};
use std::fs;
use std::path::Path;

/// A v8 file with these items.
fn items(items: &[u8]) -> Vec<u8> {
    [b"Survex 3D Image File\nv8\nA\n@0\n\0", items].concat()
}

#[track_caller]
fn says(folder: &Path, line: &str, due: &str) {
    let words: Vec<_> = line.split(' ').collect();
    let ran = run_in(folder, &words);
    assert_eq!((ran.code, &ran.out[..], &ran.err[..]), (1, "", &format!("{due}\n")[..]), "{line}");
    assert!(!folder.join("out.3d").exists());
}

/// 1 to 10: what a file is refused for.
#[test]
fn of_a_file() {
    let folder = folder("refusals");
    let long = [&[0x80, 0, 0, 0xff, 1, 16, 0, 0][..], &[b'x'; 4097], &[0; 12]].concat();
    let salvage = "(try: cockledrift salvage)";
    let cases: [(Vec<u8>, String); 12] = [
        (b"Survex".to_vec(), "1 at byte 0: no 3d file (try: another copy of it)".into()),
        (b"Survex 3D Image File\nv9\n".to_vec(), "2 at byte 21: no version from 3 to 8 (try: Survex's own programs, for other versions than 3 to 8)".into()),
        (b"Survex 3D Image File\nv8\nA".to_vec(), "3 at byte 24: a bad title or time line, or no v8 byte (try: another copy of it)".into()),
        (b"Survex 3D Image File\nv8\nA\n@0\n\x01\0\0".to_vec(), "4 at byte 29: a reserved code or bit (try: another copy of it)".into()),
        (items(&[5]), format!("4 at byte 30: a reserved code or bit {salvage}")),
        (items(&[0]), format!("5 at byte 31: an item is unfinished, or the end is missing {salvage}")),
        (items(&[[0x80, 0x10].to_vec(), vec![0; 12]].concat()), format!("6 at byte 30: the label is too short to drop from {salvage}")),
        (items(&long), format!("7 at byte 30: the label is over 4,096 bytes {salvage}")),
        (items(&[vec![0x60], vec![0; 12]].concat()), format!("8 at byte 30: a leg with no position to start from {salvage}")),
        (items(&[0x13, 5, 0, 4, 0]), format!("9 at byte 30: the last day is before the first, or a day is over 65535 {salvage}")),
        (items(&[0, 0, 0]), format!("10 at byte 32: bytes after the end {salvage}")),
        (vec![0; 16_777_217], "16 at byte 0: the file is over 16,777,216 bytes (try: Survex's own programs: nothing here takes more)".into()),
    ];
    for (bytes, due) in cases {
        fs::write(folder.join("a.3d"), bytes).expect("a file");
        says(&folder, "info a.3d", &format!("a.3d: refused {due}"));
        says(&folder, "convert --to 8 a.3d -o out.3d", &format!("a.3d: refused {due}"));
    }
}

/// 12 to 15, 17, 21 and 23: what a question or a writer is refused for.
#[test]
fn of_other_things() {
    let folder = folder("refusals-2");
    fs::write(folder.join("a.3d"), small("A", "then")).expect("a file");
    fs::write(folder.join("b.3d"), small("B", "@0")).expect("a file");
    fs::write(folder.join("c.3d"), items(&[0, 0, 0])).expect("a file");
    let leg = |style: u8| format!("leg 0 {style} none 0 0 0 1 1 1 a\n");
    fs::write(folder.join("12"), format!("{}station 128 0 0 0 x\n", leg(0))).expect("a file");
    fs::write(folder.join("13"), leg(1) + &leg(5)).expect("a file");
    fs::write(folder.join("23"), leg(0) + &leg(1)).expect("a file");
    let cases = [
        ("edit a.3d --at 0 --with 12 -o out.3d", "12: refused 12 at record 1: the sheet breaks the layout (try: lines as cockledrift list --records prints them)"),
        ("edit a.3d --at 0 --with 13 -o out.3d", "a.3d: refused 13 at record 1: the style cannot be unsaid (try: a style from 0 to 4 for that leg)"),
        ("edit a.3d --at 1 -o out.3d", "a.3d: refused 15 at record 0: the run ends past the last record (try: cockledrift info, which counts them)"),
        ("later a.3d b.3d", "a.3d: refused 17 at byte 26: the time line is not readable (try: cockledrift info, which shows the line)"),
        ("measure a.3d --survey x", "a.3d: refused 21 at 0: no leg of this survey (try: cockledrift list, which has the names of surveys)"),
    ];
    for (line, due) in cases {
        says(&folder, line, due);
    }
    fs::write(folder.join("old.3d"), b"Survex 3D Image File\nv7\nA\n@0\n\0").expect("a file");
    says(&folder, "edit old.3d --at 0 -o out.3d", "old.3d: refused 14 at byte 0: not what the writer gives for this file's sheet (try: cockledrift convert --to 8)");
    let ran = run_in(&folder, &["edit", "a.3d", "--at", "0", "--with", "23", "-o", "legs.3d"]);
    assert_eq!((ran.code, &ran.err[..]), (0, ""));
    says(&folder, "convert --to 7 legs.3d -o out.3d", "legs.3d: refused 23 at record 1: v7 cannot carry it: leg a: (0.00 0.00 0.00) to (0.01 0.01 0.01) m, no date, diving (try: cockledrift convert --to 8)");
}

/// 16 where the file that would be written is too long, and not the one that is read.
#[test]
fn of_what_would_be_written() {
    let folder = folder("refusals-3");
    let mut file = items(&[&[0, 0x0f][..], &[0; 12], &[0x40, 1, b'x'], &[1; 12]].concat());
    while file.len() + 14 <= 16_777_216 {
        file.push(0x60);
        file.extend([2; 12]);
    }
    file.push(0);
    fs::write(folder.join("legs.3d"), &file).expect("a file");
    // A leg takes a byte more in v7.
    says(&folder, "convert --to 7 legs.3d -o out.3d", "legs.3d: what would be written: refused 16 at byte 0: the file is over 16,777,216 bytes (try: fewer records)");
    let ran = run_in(&folder, &["convert", "-q", "--to", "8", "legs.3d", "-o", "same.3d"]);
    assert_eq!((ran.code, &ran.err[..]), (0, ""));
    fs::write(folder.join("more"), "leg 0 0 none 0 0 0 1 1 1 x\n".repeat(2)).expect("a file");
    says(&folder, "edit same.3d --at 0 --with more -o out.3d", "same.3d: what would be written: refused 16 at byte 0: the file is over 16,777,216 bytes (try: fewer records)");
}

/// What each place counts, by document 01's table and document 02, for every number
/// that the library's header names.
#[test]
fn every_number_has_a_row() {
    let record = [12, 13, 15, 20, 23];
    let mut seen = 0;
    for number in 1..=u8::MAX {
        let refusal = Refusal { number, place: 7 };
        if refusal.reason() == "no such number" {
            continue;
        }
        let due = match number {
            11 => "length",
            21 => "",
            _ if record.contains(&number) => "record",
            _ => "byte",
        };
        assert_eq!(unit(&refusal), due, "{number}");
        let file = small("A", "@0");
        assert_ne!(hint(&file, &refusal), "cockledrift --help", "{number} says what to do");
        let said = told(&file, &refusal);
        assert!(
            said.starts_with(&format!("refused {number} at ")) && said.ends_with(')'),
            "{said}"
        );
        seen += 1;
    }
    assert!(seen >= 19, "{seen}");
}

//! `convert`, `salvage` and `measure`, and where `-o` puts what they make.

mod common;
use cli::disk::{Disk, Fault};
use cli::output::put;
use common::{
    bad_inputs, data, data_bytes, desk, fed, folder, has, names, run_in, sh, survex_files,
};
use std::ffi::OsStr;
use std::fs;
use std::os::unix::ffi::OsStrExt;
use std::os::unix::fs::{symlink, PermissionsExt};

#[test]
fn convert_to_8_is_the_written_file() {
    let folder = folder("written");
    let mut seen = 0;
    for file in survex_files() {
        let due = data("written").join(file.file_name().expect("a name"));
        if file.parent().is_some_and(|folder| folder.ends_with("departures")) || !due.exists() {
            continue;
        }
        let out = folder.join(due.file_name().expect("a name"));
        let words = [
            "convert",
            "--to",
            "8",
            file.to_str().expect("a name"),
            "-o",
            out.to_str().expect("a name"),
        ];
        let ran = run_in(&folder, &words);
        if ran.code == 0 {
            let new = fs::read(&out).expect("it is there");
            assert!(new == fs::read(&due).expect("a file"), "{file:?}");
            // Never longer than another v8 file of the same sheet (#105).
            let old = fs::read(&file).expect("a file");
            assert!(!old.starts_with(b"Survex 3D Image File\nv8\n") || new.len() <= old.len());
            seen += 1;
        }
    }
    assert!(seen > 10, "{seen}");
    assert!(names(&folder).iter().all(|name| name.ends_with(".3d")));
}

#[test]
fn convert() {
    let folder = desk("convert");
    let ran = run_in(&folder, &["convert", "--to", "8", "good.3d", "-o", "new.3d"]);
    assert_eq!(
        (ran.code, &ran.out[..], &ran.err[..]),
        (0, "new.3d: 34 records in 640 bytes\n", "")
    );
    has(&run_in(&folder, &["info", "new.3d"]).out, "house-written: yes");
    bad_inputs(&folder, &["convert", "--to=8", "-o", "x.3d"], &[]);
    bad_inputs(&folder, &["convert", "--to=7", "-ox.3d"], &[]);
    let ran = run_in(&folder, &["convert", "--to", "8", "cut.3d", "-o", "x.3d"]);
    assert_eq!((ran.code, &ran.out[..]), (1, ""));
    assert!(!folder.join("x.3d").exists());
    for words in
        [&["convert", "good.3d", "-o", "x"][..], &["convert", "--to", "9", "good.3d", "-o", "x"]]
    {
        let ran = run_in(&folder, words);
        assert_eq!((ran.code, &ran.out[..]), (2, ""));
        has(&ran.err, "--to takes 8 or 7");
    }
    let ran = run_in(&folder, &["convert", "--to", "8", "good.3d"]);
    assert_eq!((ran.code, &ran.out[..]), (2, ""));
    has(&ran.err, "-o FILE is missing");
}

#[test]
fn convert_to_7() {
    let folder = desk("v7");
    let ran = run_in(&folder, &["convert", "--to", "7", "good.3d", "-o", "x.3d"]);
    assert_eq!((ran.code, &ran.out[..]), (1, ""));
    has(&ran.err, "good.3d: refused 23 at record 2: v7 cannot carry it: leg river:");
    let extended = data_bytes("extended.v8.3d");
    let ran = fed(&["convert", "--to", "7", "-", "-o", "-"], &extended);
    assert_eq!((ran.code, &ran.out[..]), (1, ""));
    has(&ran.err, "v7 cannot carry it: an extended elevation");
    let ran = fed(&["convert", "--to", "7", "-", "-o", "-"], &data_bytes("nested.v8.3d"));
    assert_eq!(ran.code, 0);
    assert!(ran.bytes.starts_with(b"Survex 3D Image File\nv7\n"));
    has(&ran.err, "standard output: warning: v7 does not say the normal style of ");
    let ran = fed(&["convert", "--to", "8", "-", "-o", "-"], &data_bytes("departures/dates.v8.3d"));
    assert_eq!(ran.code, 0);
    has(&ran.err, "standard output: warning: Survex's programs will read the date range of ");
    assert!(!folder.join("x.3d").exists());
    let mut file = b"Survex 3D Image File\nv8\nCave (extended)\n@0\n\0\0\0".to_vec();
    let due =
        "x.3d: warning: Survex's programs will take it for an extended elevation, by its title\n";
    fs::write(folder.join("t.3d"), &file).expect("a file");
    let ran = run_in(&folder, &["convert", "--to", "7", "t.3d", "-o", "x.3d"]);
    assert_eq!((ran.code, &ran.err[..]), (0, due));
    file[24] = b'D';
    fs::write(folder.join("t.3d"), &file).expect("a file");
    let ran = run_in(&folder, &["convert", "-q", "--to", "7", "t.3d", "--force", "-o", "x.3d"]);
    assert_eq!((ran.code, &ran.out[..], &ran.err[..]), (0, "", ""));
}

#[test]
fn salvage() {
    let folder = desk("salvage");
    let ran = run_in(&folder, &["salvage", "cut.3d", "-o", "saved.3d"]);
    let due = "cut.3d: refused 5 at byte 628: an item is unfinished, or the end is missing: 4 bytes from there on left out\n\
        cut.3d: 33 records saved: the last saved is section river.5: left 1.00 right 500.00 up 12345.67 down - m, 2003-05-18\n";
    assert_eq!((ran.code, &ran.out[..], &ran.err[..]), (0, due, ""));
    let lines = |name| run_in(&folder, &["list", "--records", name]).out;
    let (saved, good) = (lines("saved.3d"), lines("good.3d"));
    assert!(saved.lines().count() == 33 && good.starts_with(&saved));
    let ran = run_in(&folder, &["salvage", "good.3d", "-o", "whole.3d"]);
    assert_eq!((ran.code, &ran.err[..]), (0, ""));
    has(&ran.out, "good.3d: nothing is broken: all 34 records are saved\n");
    bad_inputs(&folder, &["salvage", "-o", "x.3d"], &[]);
    let ran = run_in(&folder, &["salvage", "--json", "cut.3d", "-o", "json.3d"]);
    has(&ran.out, "\"records\": 33, \"whole\": false, \"left\": 4, \"refused\": 5, \"place\": 628");
    let ran = fed(&["salvage", "-", "-o", "-"], &data_bytes("passage.v8.3d")[..632]);
    assert!(ran.code == 0 && ran.bytes == fs::read(folder.join("saved.3d")).expect("a file"));
    has(&ran.err, "33 records saved");
}

#[test]
fn every_front_of_a_file_is_salvaged() {
    let file = data_bytes("loops.v7.3d");
    for length in (60..file.len()).step_by(97) {
        let ran = fed(&["salvage", "-", "-o", "-"], &file[..length]);
        assert_eq!(ran.code, 0, "{length}: {}", ran.err);
        assert_eq!(fed(&["check", "-q", "-"], &ran.bytes).code, 0);
    }
}

#[test]
fn output_is_kept_safe() {
    let folder = desk("output");
    let convert =
        |more: &[&str]| run_in(&folder, &[&["convert", "--to", "8", "good.3d"], more].concat());
    let good = fs::read(folder.join("good.3d")).expect("a file");
    fs::write(folder.join("there.3d"), "old").expect("a file");
    fs::set_permissions(folder.join("there.3d"), fs::Permissions::from_mode(0o640))
        .expect("permissions");
    let ran = convert(&["-o", "there.3d"]);
    assert_eq!(
        (ran.code, &ran.out[..], &ran.err[..]),
        (2, "", "there.3d: it is there already (try: --force)\n")
    );
    assert_eq!(fs::read(folder.join("there.3d")).expect("a file"), b"old");
    symlink("good.3d", folder.join("link.3d")).expect("a link");
    fs::hard_link(folder.join("good.3d"), folder.join("hard.3d")).expect("a second name");
    for own in ["good.3d", "./good.3d", "link.3d", "hard.3d"] {
        let ran = convert(&["--force", "-o", own]);
        let due = format!("{own}: it is the input, and is kept\n");
        assert_eq!((ran.code, &ran.out[..], &ran.err[..]), (2, "", &due[..]));
    }
    assert!(fs::read(folder.join("good.3d")).expect("a file") == good);
    for (to, words) in [
        ("folder", "it is no plain file (-o - is standard output)"),
        ("/dev/full", "it is no plain file (-o - is standard output)"),
        ("no/x.3d", "No such file"),
    ] {
        let ran = convert(&["--force", "-o", to]);
        assert_eq!((ran.code, &ran.out[..]), (2, ""), "{to}");
        has(&ran.err, words);
    }
    let ran = convert(&["--force", "-o", "there.3d"]);
    assert_eq!((ran.code, &ran.err[..]), (0, ""));
    let mode = fs::metadata(folder.join("there.3d")).expect("a file").permissions().mode();
    assert_eq!(mode & 0o777, 0o640);
    assert!(names(&folder).iter().all(|name| !name.contains("part")), "{:?}", names(&folder));
}

/// Never over what comes by standard input, nor over records, nor over a file that a
/// catalogue is made of.
#[test]
fn other_inputs_are_kept_too() {
    let folder = desk("inputs-kept");
    fs::write(folder.join("new.txt"), "station 0 1 2 3 new\n").expect("a file");
    sh(&folder, "$P convert -q --to 8 good.3d -o a.3d; mkdir arc; cp good.3d arc");
    for line in [
        "$P convert --to 8 - --force -o good.3d <good.3d",
        "$P salvage - --force -o good.3d <good.3d",
        "$P edit a.3d --at 0 --with new.txt --force -o new.txt",
        "$P edit a.3d --at 0 --with - --force -o new.txt <new.txt",
        "$P catalogue arc --force -o arc/good.3d",
    ] {
        let ran = sh(&folder, line);
        assert_eq!((ran.code, &ran.out[..]), (2, ""), "{line}");
        has(&ran.err, ": it is the input, and is kept\n");
    }
    for name in ["good.3d", "arc/good.3d"] {
        assert_eq!(fs::read(folder.join(name)).expect("a file"), data_bytes("passage.v8.3d"));
    }
    assert_eq!(fs::read(folder.join("new.txt")).expect("a file"), b"station 0 1 2 3 new\n");
}

/// Through a link the file behind it is replaced, with its mode, and only by --force.
#[test]
fn output_through_a_link() {
    let folder = desk("links");
    fs::create_dir(folder.join("real")).expect("a folder");
    fs::write(folder.join("real/there.3d"), "old").expect("a file");
    let real = folder.join("real/there.3d");
    fs::set_permissions(&real, fs::Permissions::from_mode(0o600)).expect("permissions");
    symlink("real/there.3d", folder.join("link.3d")).expect("a link");
    symlink("nowhere.3d", folder.join("none.3d")).expect("a link");
    for (name, due) in [("link.3d", "it is there already"), ("none.3d", "it is there already")] {
        let ran = run_in(&folder, &["convert", "--to", "8", "good.3d", "-o", name]);
        assert_eq!((ran.code, &ran.out[..]), (2, ""));
        has(&ran.err, due);
    }
    let ran = sh(&folder, "umask 0; $P convert --to 8 good.3d --force -o link.3d");
    assert_eq!((ran.code, &ran.err[..]), (0, ""));
    assert!(fs::symlink_metadata(folder.join("link.3d")).expect("a link").is_symlink());
    let there = fs::metadata(&real).expect("a file");
    assert_eq!((there.len(), there.permissions().mode() & 0o777), (640, 0o600));
    assert_eq!(names(&folder.join("real")), ["there.3d"]);
    // Standard output by another name, and a new file's mode.
    let ran = sh(&folder, "$P convert --to 8 good.3d -o /dev/stdout | cat");
    assert_eq!(ran.err, "/dev/stdout: it is no plain file (-o - is standard output)\n");
    let ran =
        sh(&folder, "umask 027; $P convert -q --to 8 good.3d -o fresh.3d; stat -c %a fresh.3d");
    assert_eq!((&ran.out[..], &ran.err[..]), ("640\n", ""));
}

/// A disk that fails, and one that stops, at each of its operations: the file is
/// wholly old, wholly new or not there.
#[test]
fn output_on_a_disk_that_fails() {
    let folder = folder("outfaults");
    let to = folder.join("to.3d");
    for (old, over) in [(Some(&b"old file"[..]), true), (None, true), (None, false)] {
        for stops in [false, true] {
            let mut done = false;
            for number in 0..20 {
                let _ = fs::remove_dir_all(&folder);
                fs::create_dir_all(&folder).expect("a folder");
                old.iter().for_each(|old| fs::write(&to, old).expect("a file"));
                let disk = Disk::new(if stops { Fault::From(number) } else { Fault::At(number) });
                let put = put(&disk, &to, b"new file", over);
                let there = fs::read(&to).ok();
                let whole = there.as_deref() == old || there.as_deref() == Some(b"new file");
                assert!(whole && (put.is_err() || there != old.map(Vec::from)), "{number}");
                let part = names(&folder).iter().any(|name| name.contains("part"));
                assert!(stops || put.is_ok() || !part, "{number}");
                if disk.operations() <= number {
                    assert!(put.is_ok() && !part && number > 5, "{number}");
                    done = true;
                    break;
                }
            }
            assert!(done);
        }
    }
}

#[test]
fn a_full_disk_leaves_nothing() {
    let folder = desk("full");
    fs::copy(data("nested.v8.3d"), folder.join("nested.3d")).expect("a copy");
    fs::write(folder.join("there.3d"), "old").expect("a file");
    let limit = "trap '' XFSZ; ulimit -f 1;";
    for line in
        ["convert --to 8 nested.3d -o new.3d", "convert --to 8 nested.3d --force -o there.3d"]
    {
        let ran = sh(&folder, &format!("{limit} $P {line}"));
        assert_eq!((ran.code, &ran.out[..]), (2, ""), "{line}");
        has(&ran.err, "File too large");
    }
    assert_eq!(fs::read(folder.join("there.3d")).expect("a file"), b"old");
    assert!(!folder.join("new.3d").exists());
    assert!(names(&folder).iter().all(|name| !name.contains("part")));
    let ran = sh(&folder, "$P convert --to 8 nested.3d -o - >/dev/full");
    assert_eq!((ran.code, &ran.err[..]), (2, "standard output: No space left on device\n"));
}

#[test]
fn measure() {
    let folder = desk("measure");
    let mut file = b"Survex 3D Image File\nv8\nA\n@0\n\0\0".to_vec();
    let point = |x: i32, y: i32, z: i32| [x, y, z].map(i32::to_le_bytes).concat();
    let mut leg = |code: u8, label: &[u8], to: Vec<u8>| {
        file.push(code);
        file.extend(label);
        file.extend(to);
    };
    leg(0x0f, b"", point(0, 0, 0));
    leg(0x40, b"\x01a", point(300, 400, 0)); // 500
    leg(0x40, b"\x02.b", point(301, 401, 1)); // the root of 3: 1 to 2
    leg(0x41, b"\x21b", point(301, 401, 101)); // above ground, in ab: 100
    file.push(0);
    fs::write(folder.join("three.3d"), &file).expect("a file");
    let ran = run_in(&folder, &["measure", "three.3d"]);
    let due = "east: 0.00 to 3.01 m, 3.01 m across\nnorth: 0.00 to 4.01 m, 4.01 m across\nup: 0.00 to 1.01 m, 1.01 m across\n\
        length: 5.01 to 5.02 m (2 legs), without those above ground, duplicates and splays\n\
        all legs: 6.01 to 6.02 m (3 legs)\nabove ground: 1.00 to 1.00 m (1 leg)\nduplicate: 0.00 to 0.00 m (0 legs)\nsplay: 0.00 to 0.00 m (0 legs)\n";
    assert_eq!((ran.code, &ran.out[..], &ran.err[..]), (0, due, ""));
    let ran = run_in(&folder, &["measure", "three.3d", "--survey", "a.b"]);
    has(&ran.out, "length: 0.01 to 0.02 m (1 leg)");
    let ran = run_in(&folder, &["measure", "--survey=ab.", "three.3d"]);
    assert_eq!(
        (ran.code, &ran.out[..], &ran.err[..]),
        (1, "", "three.3d: refused 21 at 0: no leg of this survey (try: cockledrift list, which has the names of surveys)\n")
    );
    bad_inputs(&folder, &["measure"], &[]);
    let ran = run_in(&folder, &["measure", "--json", "--survey", "a", "three.3d"]);
    has(&ran.out, "\"legs\": 2, \"least\": [0, 0, 0], \"greatest\": [301, 401, 1], \"length\": [501, 502], \"all\": [501, 502]");
}

/// Legs that take hundreds of times their bytes: where memory does not do, that is
/// said, and nothing ends the program from outside.
#[test]
fn too_little_memory() {
    let folder = folder("memory");
    let mut file = b"Survex 3D Image File\nv8\nA\n@0\n\0\0\x0f".to_vec();
    file.extend([0; 12]);
    file.extend(b"\x40\0\0\xff\0\x10\0\0");
    file.extend([b'x'; 4096]);
    file.extend([1; 12]);
    for _ in 0..100_000 {
        file.push(0x60);
        file.extend([2; 12]);
    }
    file.push(0);
    fs::write(folder.join("a.3d"), &file).expect("a file");
    for line in
        ["measure a.3d", "convert --to 8 a.3d -o b.3d", "salvage a.3d -o b.3d", "diff a.3d a.3d"]
    {
        let ran = sh(&folder, &format!("ulimit -v 200000; $P {line}"));
        let due = "a.3d: its records take 413004140 bytes of memory, more than is free (try: a larger machine)\n";
        assert_eq!((ran.code, &ran.out[..], &ran.err[..]), (2, "", due), "{line}");
    }
    let ran = sh(&folder, "ulimit -v 200000; $P info a.3d | grep records; $P check a.3d");
    assert_eq!((ran.code, &ran.err[..]), (0, ""));
    has(&ran.out, "records: 100001 (100001 legs,");
    assert_eq!(names(&folder), ["a.3d"]);
}

#[test]
fn output_names_of_any_bytes() {
    let folder = desk("outnames");
    for name in [&b"a b.3d"[..], b"a\nb.3d", b"\xff\xfe.3d", b"--force"] {
        let name = OsStr::from_bytes(name);
        let words = ["convert", "--to", "8", "good.3d", "-o"].map(OsStr::new);
        let ran = run_in(&folder, &[&words[..], &[name]].concat());
        assert_eq!((ran.code, &ran.err[..]), (0, ""), "{name:?}");
        assert_eq!(fs::read(folder.join(name)).expect("it is there").len(), 640);
        let words = [OsStr::new("restore"), OsStr::new("--"), OsStr::new("good.3d"), name];
        let ran = run_in(&folder, &words);
        assert_eq!((ran.code, &ran.out[..]), (1, ""));
        has(&ran.err, "have the same second and other bytes");
    }
}

//! `catalogue` and `verify`.

mod common;
use common::{data, folder, has, run_in, sh, small};
use std::ffi::OsStr;
use std::fs;
use std::os::unix::ffi::OsStrExt;
use std::path::{Path, PathBuf};

/// An archive of several files.
fn archive(name: &str) -> PathBuf {
    let folder = folder(name);
    let archive = folder.join("arc");
    fs::create_dir_all(archive.join("sub")).expect("a folder");
    let put = |name: &[u8], bytes: &[u8]| {
        fs::write(archive.join(OsStr::from_bytes(name)), bytes).expect("a file");
    };
    put(b"a.3d", &small("Cave", "@1016373666"));
    put(b"b.3d", &small("Cave", "Sun,2002.03.17 14:01:07 GMT"));
    put(b"sub/c.3d", &fs::read(data("loops.v6.3d")).expect("a file"));
    put(b"sub/cut.3d", &fs::read(data("loops.v6.3d")).expect("a file")[..600]);
    put(b"sub/odd\t\xff\n\\.3d", &small("Tab\there", "yesterday"));
    put(b"notes.txt", b"no 3d file");
    folder
}

fn catalogued(folder: &Path) {
    let ran = run_in(folder, &["catalogue", "arc", "-o", "arc.tsv"]);
    assert_eq!((ran.code, &ran.out[..], &ran.err[..]), (0, "", ""));
}

#[test]
fn catalogue() {
    let folder = archive("catalogue");
    let ran = run_in(&folder, &["catalogue", "arc"]);
    assert_eq!((ran.code, &ran.err[..]), (0, ""));
    let lines: Vec<_> = ran.out.lines().collect();
    assert_eq!(lines.len(), 8);
    assert_eq!((lines[0], lines[7]), ("# cockledrift catalogue 1\tarc", "# end 5"));
    assert!(lines[1..7].iter().all(|line| line.split('\t').count() == 9), "{lines:?}");
    has(lines[2], "\t44\t2002-03-17T14:01:06Z\t@1016373666\t8\t0\tCave\ta.3d\tsame minute,older");
    has(
        lines[3],
        "\t2002-03-17T14:01:07Z\tSun,2002.03.17 14:01:07 GMT\t8\t0\tCave\tb.3d\tsame minute,latest",
    );
    has(lines[4], "\t652\t2026-11-15T17:03:45Z\t");
    assert!(lines[4].ends_with("\tsub/c.3d\t"), "{}", lines[4]);
    assert!(lines[5].ends_with("\t6\t-\tLoops\tsub/cut.3d\trefused 5"), "{}", lines[5]);
    assert!(
        lines[6].ends_with("\t-\tyesterday\t8\t0\tTab\\x09here\tsub/odd\\x09\\xff\\x0a\\x5c.3d\t"),
        "{}",
        lines[6]
    );
    let again = run_in(&folder, &["catalogue", "arc"]);
    assert_eq!(ran.out, again.out);
    let ran = run_in(&folder, &["catalogue", "--json", "arc"]);
    has(&ran.out, "\"path\": \"a.3d\", \"marks\": [\"same minute\", \"older\"]}\n");
    has(&ran.out, "\"path_hex\": \"7375622f6f646409ff0a5c2e3364\"");
}

#[test]
fn sums() {
    let folder = archive("sums");
    let ran =
        sh(&folder, "$P catalogue --sums arc >sums && sha256sum -c --quiet sums && wc -l <sums");
    assert_eq!((ran.code, ran.out.trim(), &ran.err[..]), (0, "5", ""));
}

#[test]
fn catalogue_in_trouble() {
    let folder = archive("trouble");
    let ran = run_in(&folder, &["catalogue", "missing"]);
    assert_eq!((ran.code, &ran.out[..]), (2, ""));
    has(&ran.err, "missing: No such file or directory");
    let ran = run_in(&folder, &["catalogue", "arc/a.3d"]);
    assert_eq!((ran.code, &ran.out[..]), (2, ""));
    std::os::unix::fs::symlink("/proc/self/mem", folder.join("arc/bad.3d")).expect("a link");
    let ran = run_in(&folder, &["catalogue", "arc", "-o", "x.tsv"]);
    assert_eq!((ran.code, &ran.out[..]), (2, ""));
    has(&ran.err, "arc/bad.3d: Input/output error\narc: no catalogue is made\n");
    assert!(!folder.join("x.tsv").exists());
    let ran = sh(&archive("fullsums"), "$P catalogue arc >/dev/full");
    assert_eq!((ran.code, &ran.err[..]), (2, "standard output: No space left on device\n"));
}

#[test]
fn verify() {
    let folder = archive("verify");
    catalogued(&folder);
    let ran = run_in(&folder, &["verify", "arc.tsv"]);
    let due = "5 files in the catalogue: 5 as they were, 0 missing, 0 changed, 0 moved; 0 new\n";
    assert_eq!((ran.code, &ran.out[..], &ran.err[..]), (0, due, ""));
    let arc = folder.join("arc");
    fs::remove_file(arc.join("a.3d")).expect("it is removed");
    fs::write(arc.join("b.3d"), small("Cave", "@1016373668")).expect("a file");
    fs::rename(arc.join("sub/c.3d"), arc.join("d.3d")).expect("it is moved");
    fs::write(arc.join("sub/cut.3d"), "other").expect("a file");
    fs::write(arc.join("e.3d"), small("New", "@5")).expect("a file");
    let ran = run_in(&folder, &["verify", "arc.tsv"]);
    let due = "missing: a.3d\nchanged: b.3d: it still reads\n\
        changed: sub/cut.3d: refused 1 at byte 0: no 3d file (try: another copy of it)\nmoved: sub/c.3d to d.3d\nnew: e.3d\n\
        5 files in the catalogue: 1 as they were, 1 missing, 2 changed, 1 moved; 1 new\n";
    assert_eq!((ran.code, &ran.out[..], &ran.err[..]), (1, due, ""));
    let ran = run_in(&folder, &["verify", "--json", "arc.tsv"]);
    has(
        &ran.out,
        "{\"schema\": 1, \"state\": \"moved\", \"path\": \"sub/c.3d\", \"to\": \"d.3d\"}\n",
    );
    fs::rename(&arc, folder.join("else")).expect("it is moved");
    let ran = run_in(&folder, &["verify", "--folder", "else", "arc.tsv"]);
    assert_eq!((ran.code, &ran.out[..]), (1, due));
    let ran = run_in(&folder, &["verify", "arc.tsv"]);
    assert_eq!((ran.code, &ran.out[..]), (2, ""));
}

/// What cannot be looked at is told, and is not called missing; all else is told too.
#[test]
fn verify_what_cannot_be_read() {
    let folder = archive("unread");
    catalogued(&folder);
    let arc = folder.join("arc");
    fs::remove_file(arc.join("a.3d")).expect("it is removed");
    fs::remove_file(arc.join("b.3d")).expect("it is removed");
    std::os::unix::fs::symlink("/proc/self/mem", arc.join("b.3d")).expect("a link");
    let made = sh(
        &arc,
        "mkfifo sub/pipe.3d && ln -s nothing sub/none.3d && rm sub/c.3d && ln -s nothing sub/c.3d",
    );
    assert_eq!(made.code, 0);
    let ran = run_in(&folder, &["verify", "arc.tsv"]);
    let due = "missing: a.3d\n\
        5 files in the catalogue: 2 as they were, 1 missing, 0 changed, 0 moved; 0 new, 4 not read\n";
    let told =
        "arc/sub/c.3d: No such file or directory\narc/sub/none.3d: No such file or directory\n\
        arc/sub/pipe.3d: it is no plain file\narc/b.3d: Input/output error\n";
    assert_eq!((ran.code, &ran.out[..], &ran.err[..]), (2, due, told));
    let ran = run_in(&folder, &["check", "arc"]);
    assert_eq!(ran.code, 2);
    has(&ran.err, "arc/sub/pipe.3d: it is no plain file\n");
    has(&ran.out, "3 files: 1 good, 1 refused, 1 not read\n");
    let ran = run_in(&folder, &["catalogue", "arc"]);
    assert_eq!((ran.code, &ran.out[..]), (2, ""));
    has(&ran.err, "arc: no catalogue is made\n");
}

/// A catalogue of which lines are missing, or stand twice, is none.
#[test]
fn a_part_of_a_catalogue() {
    let folder = archive("parts");
    catalogued(&folder);
    let text = fs::read_to_string(folder.join("arc.tsv")).expect("a catalogue");
    let lines: Vec<_> = text.lines().collect();
    for gone in 2..lines.len() {
        let mut rest = lines.clone();
        rest.remove(gone);
        fs::write(folder.join("part.tsv"), rest.join("\n") + "\n").expect("a file");
        let ran = run_in(&folder, &["verify", "part.tsv"]);
        let files = if gone == 7 { 5 } else { 4 };
        let due = format!("part.tsv: a part of the catalogue is missing: it has {files} files\n");
        assert_eq!((ran.code, &ran.out[..], &ran.err[..]), (2, "", &due[..]));
    }
    let twice = [&lines[..3], &lines[2..]].concat().join("\n");
    fs::write(folder.join("part.tsv"), twice).expect("a file");
    let ran = run_in(&folder, &["verify", "part.tsv"]);
    let due = "part.tsv: line 4 is none of a catalogue (try: cockledrift catalogue)\n";
    assert_eq!((ran.code, &ran.err[..]), (2, due));
    // One that went through another system's line ends is good.
    fs::write(folder.join("part.tsv"), text.replace('\n', "\r\n")).expect("a file");
    let ran = run_in(&folder, &["verify", "part.tsv"]);
    assert_eq!((ran.code, &ran.err[..]), (0, ""));
}

/// A catalogue whose tree is elsewhere.
#[test]
fn a_moved_tree() {
    let folder = archive("moved");
    let ran = sh(
        &folder,
        "cd arc && $P catalogue . -o ../here.tsv && cd .. && $P catalogue $PWD/arc -o whole.tsv",
    );
    assert_eq!((ran.code, &ran.err[..]), (0, ""));
    let ran = sh(&folder, "mkdir empty && cd empty && $P verify ../here.tsv");
    assert_eq!(ran.code, 1);
    has(&ran.out, "5 files in the catalogue: 0 as they were, 5 missing");
    assert_eq!(
        ran.err,
        ".: no file of the catalogue is there (try: --folder, where the archive is now)\n"
    );
    let ran = sh(&folder, "mv arc other && $P verify whole.tsv");
    assert_eq!((ran.code, &ran.out[..]), (2, ""));
    has(&ran.err, "/arc: No such file or directory (try: --folder, where the archive is now)\n");
    for name in ["here.tsv", "whole.tsv"] {
        let ran = run_in(&folder, &["verify", "--folder", "other", name]);
        assert_eq!((ran.code, &ran.err[..]), (0, ""), "{name}");
    }
}

/// Files of one title of which one is older are marked, whatever their coordinate
/// system; two of the same bytes can both move.
#[test]
fn marks_and_moves() {
    let folder = folder("marks");
    let arc = folder.join("arc");
    fs::create_dir(&arc).expect("a folder");
    for (name, title, time) in [
        ("a.3d", "Cave\0EPSG:1", "@60"),
        ("b.3d", "Cave", "@7200"),
        ("c.3d", "Cave", "@7200"),
        ("d.3d", "Alone", "@0"),
        ("e.3d", "Cave", "unknown"),
    ] {
        fs::write(arc.join(name), small(title, time)).expect("a file");
    }
    catalogued(&folder);
    let text = fs::read_to_string(folder.join("arc.tsv")).expect("a catalogue");
    let marks: Vec<_> = text
        .lines()
        .filter(|line| !line.starts_with('#'))
        .map(|line| line.split('\t').skip(7).collect::<Vec<_>>())
        .collect();
    assert_eq!(
        marks,
        [["a.3d", "older"], ["b.3d", "latest"], ["c.3d", "latest"], ["d.3d", ""], ["e.3d", ""]]
    );
    let moved = sh(&arc, "mkdir x && mv b.3d x && mv c.3d x && cp x/b.3d x/copy.3d");
    assert_eq!(moved.code, 0);
    let ran = run_in(&folder, &["verify", "arc.tsv"]);
    let due = "moved: b.3d to x/b.3d\nmoved: c.3d to x/c.3d\nnew: x/copy.3d\n";
    assert_eq!((ran.code, &ran.err[..]), (1, ""));
    assert!(ran.out.starts_with(due), "{}", ran.out);
}

/// A catalogue longer than a 3d file may be, from standard input.
#[test]
fn a_long_catalogue() {
    let folder = archive("longer");
    catalogued(&folder);
    let line = "(head -n 1 arc.tsv; yes '# a note that takes some room' | head -n 566667; \
                sed 1,2d arc.tsv) | $P verify -";
    let ran = sh(&folder, line);
    assert_eq!((ran.code, &ran.err[..]), (0, ""));
    has(&ran.out, "5 files in the catalogue: 5 as they were");
}

#[test]
fn verify_in_trouble() {
    let folder = archive("bad");
    catalogued(&folder);
    for (name, bytes) in [("empty", &b""[..]), ("other", b"some text\n"), ("bytes", b"\xff\xff")] {
        fs::write(folder.join(name), bytes).expect("a file");
        let ran = run_in(&folder, &["verify", name]);
        let due = format!("{name}: line 1 is none of a catalogue (try: cockledrift catalogue)\n");
        assert_eq!((ran.code, &ran.out[..], &ran.err[..]), (2, "", &due[..]));
    }
    let text = fs::read_to_string(folder.join("arc.tsv")).expect("a catalogue");
    fs::write(folder.join("cut.tsv"), &text[..text.len() - 90]).expect("a file");
    let ran = run_in(&folder, &["verify", "cut.tsv"]);
    assert_eq!(
        (ran.code, &ran.err[..]),
        (2, "cut.tsv: line 7 is none of a catalogue (try: cockledrift catalogue)\n")
    );
    let ran = run_in(&folder, &["verify", "missing.tsv"]);
    assert_eq!((ran.code, &ran.err[..]), (2, "missing.tsv: No such file or directory\n"));
}

/// Every single flipped bit of a small file is found.
#[test]
fn flipped_bits() {
    let folder = folder("bits");
    let bytes = small("A", "@0");
    fs::create_dir(folder.join("arc")).expect("a folder");
    for place in 0..bytes.len() * 8 {
        let mut flipped = bytes.clone();
        flipped[place / 8] ^= 1 << (place % 8);
        let name = format!("arc/{place:04}.3d");
        fs::write(folder.join(&name), &bytes).expect("a file");
        fs::write(folder.join("arc").join(format!("{place:04}.new")), flipped).expect("a file");
    }
    catalogued(&folder);
    let ran = sh(
        &folder,
        "cd arc && for f in *.new; do mv $f ${f%.new}.3d; done; cd .. && $P verify arc.tsv",
    );
    assert_eq!((ran.code, &ran.err[..]), (1, ""));
    let changed = ran.out.lines().filter(|line| line.starts_with("changed: ")).count();
    assert_eq!(changed, bytes.len() * 8);
    has(&ran.out, " it still reads\n");
}

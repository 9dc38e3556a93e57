//! `restore`.

mod common;
use cli::commands::restore::{carry_out, plan, Permits};
use cli::disk::{steady, Disk, Fault};
use common::{desk, fed, folder, has, names, run_in, sh, small};
use std::ffi::OsStr;
use std::fs;
use std::os::unix::fs::{chown, symlink, MetadataExt, PermissionsExt};
use std::path::Path;

fn put(folder: &Path, name: &str, bytes: &[u8]) {
    fs::write(folder.join(name), bytes).expect("a file");
}

fn get(folder: &Path, name: &str) -> Vec<u8> {
    fs::read(folder.join(name)).unwrap_or_default()
}

#[test]
fn a_later_file_takes_the_place() {
    let folder = folder("restore");
    let (old, new) = (small("A", "@1016373666"), small("A", "@1016373667"));
    put(&folder, "from.3d", &new);
    put(&folder, "to.3d", &old);
    let kept = "to.3d.2002-03-17T140106Z";
    let ran = run_in(&folder, &["restore", "--dry-run", "from.3d", "to.3d"]);
    assert_eq!((ran.code, &ran.err[..]), (0, ""));
    has(&ran.out, "to.3d: would be restored; the replaced file is ");
    assert_eq!(names(&folder), ["from.3d", "to.3d"]);
    assert!(get(&folder, "to.3d") == old);
    let ran = run_in(&folder, &["restore", "from.3d", "to.3d"]);
    assert_eq!((ran.code, &ran.err[..]), (0, ""));
    has(&ran.out, kept);
    assert_eq!(names(&folder), ["from.3d", "to.3d", kept]);
    assert!(get(&folder, "to.3d") == new && get(&folder, kept) == old);
    let ran = run_in(&folder, &["restore", "from.3d", "to.3d"]);
    assert_eq!((ran.code, &ran.out[..], &ran.err[..]), (0, "to.3d: it is the same already\n", ""));
    let ran = run_in(&folder, &["restore", "--json", "from.3d", "else.3d"]);
    let due =
        "{\"schema\": 1, \"from\": \"from.3d\", \"to\": \"else.3d\", \"done\": \"restored\"}\n";
    assert_eq!((ran.code, &ran.out[..]), (0, due));
    assert!(get(&folder, "else.3d") == new);
}

#[test]
fn what_is_refused() {
    let folder = folder("refused");
    let (old, new, other) = (small("A", "@100"), small("A", "@161"), small("A", "yesterday"));
    put(&folder, "old.3d", &old);
    put(&folder, "odd.3d", &other);
    let refused = |from: &str, to: &[u8], words: &str| {
        put(&folder, "to.3d", to);
        let ran = run_in(&folder, &["restore", from, "to.3d"]);
        assert_eq!((ran.code, &ran.out[..]), (1, ""));
        has(&ran.err, words);
        assert!(get(&folder, "to.3d") == to);
        assert_eq!(names(&folder).len(), 3, "{:?}", names(&folder));
    };
    let later =
        "to.3d is later than old.3d, by 1 minute, 1 second: to.3d is kept (try: --even-if-older)\n";
    refused("old.3d", &new, later);
    refused(
        "old.3d",
        &small("B", "@100"),
        "old.3d and to.3d have the same second and other bytes: to.3d is kept",
    );
    let unknown = "odd.3d: refused 17 at byte 26: the time line is not readable: to.3d is kept (try: cockledrift info, which shows the line; or --even-if-unknown)\n";
    refused("odd.3d", &new, unknown);
    refused("old.3d", &other, "to.3d: refused 17 at byte 26");
    refused("old.3d", b"", "to.3d: refused 1 at byte 0: no 3d file: to.3d is kept");
}

#[test]
fn permits_permit_what_they_name() {
    let folder = folder("permits");
    let cases = [
        ("@100", "@161", "--even-if-unknown", 1),
        ("@100", "@161", "--even-if-older", 0),
        ("@100", "one", "--even-if-older", 1),
        ("@100", "one", "--even-if-unknown", 0),
        ("one", "@100", "--even-if-unknown", 0),
        ("one", "@100", "--even-if-older", 1),
    ];
    for (from, to, permit, code) in cases {
        put(&folder, "from.3d", &small("A", from));
        put(&folder, "to.3d", &small("A", to));
        let ran = run_in(&folder, &["restore", permit, "from.3d", "to.3d"]);
        assert_eq!(ran.code, code, "{from} {to} {permit}: {}", ran.err);
        let due = if code == 0 { from } else { to };
        assert!(get(&folder, "to.3d") == small("A", due));
    }
    put(&folder, "from.3d", &small("B", "@100"));
    put(&folder, "to.3d", &small("A", "@100"));
    let words = ["restore", "--even-if-older", "--even-if-unknown", "from.3d", "to.3d"];
    assert_eq!(run_in(&folder, &words).code, 1);
}

#[test]
fn kept_files_are_never_lost() {
    let folder = folder("kept");
    put(&folder, "from.3d", &small("A", "@200"));
    let stamp = "to.3d.1970-01-01T000140Z";
    for title in ["B", "C", "B"] {
        put(&folder, "to.3d", &small(title, "@100"));
        let ran = run_in(&folder, &["restore", "from.3d", "to.3d"]);
        assert_eq!(ran.code, 0, "{}", ran.err);
    }
    let second = format!("{stamp}.2");
    assert_eq!(names(&folder), ["from.3d", "to.3d", stamp, &second]);
    assert!(
        get(&folder, stamp) == small("B", "@100") && get(&folder, &second) == small("C", "@100")
    );
}

#[test]
fn other_inputs() {
    let folder = desk("inputs");
    for (from, code) in [
        ("missing.3d", 2),
        ("folder", 2),
        ("/proc/self/mem", 2),
        ("long.3d", 1),
        ("huge.3d", 1),
        ("empty.3d", 1),
    ] {
        let ran = run_in(&folder, &["restore", from, "good.3d"]);
        assert_eq!((ran.code, &ran.out[..]), (code, ""), "{from}");
    }
    for from in ["long.3d", "huge.3d"] {
        let ran = run_in(&folder, &["restore", "--even-if-unknown", from, "good.3d"]);
        assert_eq!((ran.code, &ran.out[..]), (1, ""));
        has(&ran.err, "refused 16 at byte 0");
    }
    assert_eq!(run_in(&folder, &["restore", "good.3d", "folder"]).code, 2);
    assert_eq!(run_in(&folder, &["restore", "good.3d", "-"]).code, 2);
    assert_eq!(run_in(&folder, &["restore", "good.3d", "no/such.3d"]).code, 2);
    let to = folder.join("new.3d");
    let ran =
        fed(&[OsStr::new("restore"), OsStr::new("-"), to.as_os_str()], &get(&folder, "good.3d"));
    assert!(ran.code == 0 && get(&folder, "new.3d") == get(&folder, "good.3d"));
    let ran = run_in(&folder, &["restore", "cut.3d", "copy.3d"]);
    assert_eq!(ran.code, 0);
    has(&ran.err, "cut.3d: warning: refused 5 at byte 628");
    // A file over the limit is kept whole.
    let ran = run_in(&folder, &["restore", "--even-if-unknown", "good.3d", "long.3d"]);
    assert_eq!(ran.code, 0, "{}", ran.err);
    let kept = fs::metadata(folder.join("long.3d.unknown-time")).expect("it is kept");
    assert_eq!(kept.len(), 16_777_217);
}

#[test]
fn a_full_disk() {
    let folder = folder("fulldisk");
    fs::copy(common::data("nested.v8.3d"), folder.join("from.3d")).expect("a copy");
    put(&folder, "to.3d", &small("A", "@100"));
    let ran = sh(&folder, "trap '' XFSZ; ulimit -f 1; $P restore from.3d to.3d");
    assert_eq!((ran.code, &ran.out[..], &ran.err[..]), (2, "", "to.3d: File too large\n"));
    assert!(get(&folder, "to.3d") == small("A", "@100"));
    assert!(names(&folder).iter().all(|name| !name.contains("part")));
}

#[test]
fn what_changed_meanwhile_is_kept() {
    let folder = folder("meanwhile");
    let to = folder.join("to.3d");
    for late in [small("A", "@300"), b"".to_vec()] {
        put(&folder, "to.3d", &small("A", "@100"));
        let made = plan(OsStr::new("from"), small("A", "@200"), to.as_os_str(), Permits::default());
        let made = made.expect("it is judged").expect("something to do");
        fs::remove_file(&to).expect("it is removed");
        put(&folder, "to.3d", &late);
        assert!(carry_out(&Disk::new(Fault::Nothing), &made).is_err());
        assert!(get(&folder, "to.3d") == late);
    }
}

/// A second name that was made meanwhile is taken away again, and nothing else is
/// left.
#[test]
fn what_changed_leaves_no_names() {
    let folder = folder("meanwhile-names");
    let to = folder.join("to.3d");
    put(&folder, "to.3d", &small("A", "@100"));
    let made = plan(OsStr::new("from"), small("A", "@200"), to.as_os_str(), Permits::default());
    let made = made.expect("it is judged").expect("something to do");
    put(&folder, "to.3d", &small("A", "@300"));
    let error = carry_out(&Disk::new(Fault::Nothing), &made).expect_err("it has changed");
    assert_eq!(error.to_string(), "it has changed meanwhile, and is kept");
    assert_eq!(names(&folder), ["to.3d"]);
    assert!(get(&folder, "to.3d") == small("A", "@300"));
    // Where nothing was there, a file that came meanwhile stays.
    let new = folder.join("new.3d");
    let made = plan(OsStr::new("from"), small("A", "@200"), new.as_os_str(), Permits::default());
    let made = made.expect("it is judged").expect("something to do");
    put(&folder, "new.3d", &small("A", "@1"));
    assert!(carry_out(&Disk::new(Fault::Nothing), &made).is_err());
    assert!(get(&folder, "new.3d") == small("A", "@1"));
    assert_eq!(names(&folder), ["new.3d", "to.3d"]);
}

/// A link is followed: the file behind it changes and is kept beside itself.
#[test]
fn through_a_link() {
    let folder = folder("link");
    fs::create_dir(folder.join("real")).expect("a folder");
    put(&folder, "from.3d", &small("A", "@200"));
    put(&folder, "real/to.3d", &small("A", "@100"));
    symlink("real/to.3d", folder.join("to.3d")).expect("a link");
    let ran = run_in(&folder, &["restore", "--json", "from.3d", "to.3d"]);
    assert_eq!((ran.code, &ran.err[..]), (0, ""));
    has(&ran.out, "\"done\": \"restored\", \"kept\": \"");
    has(&ran.out, "/real/to.3d.1970-01-01T000140Z\"}\n");
    assert_eq!(names(&folder), ["from.3d", "real", "to.3d"]);
    assert_eq!(names(&folder.join("real")), ["to.3d", "to.3d.1970-01-01T000140Z"]);
    assert!(fs::symlink_metadata(folder.join("to.3d")).expect("a link").is_symlink());
    assert!(get(&folder, "real/to.3d") == small("A", "@200"));
    // The same file by another name.
    fs::hard_link(folder.join("from.3d"), folder.join("again.3d")).expect("a second name");
    let ran = run_in(&folder, &["restore", "from.3d", "again.3d"]);
    assert_eq!((ran.code, &ran.out[..]), (0, "again.3d: it is the same already\n"));
    // Links to nothing, and what is no file.
    symlink("nothing", folder.join("none.3d")).expect("a link");
    let ran = run_in(&folder, &["restore", "from.3d", "none.3d"]);
    assert_eq!((ran.code, &ran.err[..]), (2, "none.3d: it is a link to nothing\n"));
    assert!(!folder.join("nothing").exists());
    let ran = sh(&folder, "mkfifo pipe.3d && $P restore --even-if-unknown from.3d pipe.3d");
    assert_eq!((ran.code, &ran.err[..]), (2, "pipe.3d: it is no plain file\n"));
}

/// TO keeps its mode, its owner and its group; a new one has FROM's mode.
#[test]
fn modes_and_owners() {
    let folder = folder("modes");
    let mode = |name: &str, mode| {
        let path = folder.join(name);
        fs::set_permissions(path, fs::Permissions::from_mode(mode)).expect("permissions");
    };
    let there = |name: &str| fs::metadata(folder.join(name)).expect("a file");
    put(&folder, "from.3d", &small("A", "@200"));
    put(&folder, "to.3d", &small("A", "@100"));
    (mode("from.3d", 0o600), mode("to.3d", 0o640));
    let root = there("to.3d").uid() == 0;
    if root {
        chown(folder.join("to.3d"), Some(65534), Some(65534)).expect("root gives it away");
    } else {
        common::skipped("the owner of a restored file: this is not root");
    }
    let (old, kept) = (there("to.3d"), "to.3d.1970-01-01T000140Z");
    let ran = sh(&folder, "umask 0 && $P restore from.3d to.3d && $P restore from.3d new.3d");
    assert_eq!((ran.code, &ran.err[..]), (0, ""));
    for name in ["to.3d", kept] {
        let new = there(name);
        assert_eq!(
            (new.mode(), new.uid(), new.gid()),
            (old.mode(), old.uid(), old.gid()),
            "{name}"
        );
    }
    assert_eq!(there("new.3d").mode() & 0o777, 0o600);
}

/// A file that changes while it is read is not taken.
#[test]
fn a_file_that_changes_while_it_is_read() {
    let folder = folder("steady");
    put(&folder, "a.3d", b"one");
    let open = || fs::File::open(folder.join("a.3d")).expect("a file");
    let read = |_: &mut fs::File| Ok(());
    assert!(steady(&mut open(), read).is_ok());
    let error = steady(&mut open(), |_| {
        put(&folder, "a.3d", b"longer");
        Ok(())
    });
    assert_eq!(error.expect_err("it changed").to_string(), "it changed while it was read");
}

/// A disk that fails, and one that stops, at each of its operations: the place is
/// wholly old or wholly new, and the old file is never lost, later or not.
#[test]
fn every_operation_fails_or_stops() {
    let folder = folder("faults");
    let to = folder.join("to.3d");
    let new = small("new", "@200");
    let permits = Permits { older: true, unknown: true };
    for old in
        [Some(small("old", "@100")), Some(small("later", "@300")), Some(small("odd", "one")), None]
    {
        for stops in [false, true] {
            let mut done = false;
            for number in 0..40 {
                let _ = fs::remove_dir_all(&folder);
                fs::create_dir_all(&folder).expect("a folder");
                old.iter().for_each(|old| put(&folder, "to.3d", old));
                let made = plan(OsStr::new("from"), new.clone(), to.as_os_str(), permits);
                let made = made.expect("it is judged").expect("something to do");
                let disk = Disk::new(if stops { Fault::From(number) } else { Fault::At(number) });
                let carried = carry_out(&disk, &made);
                let there = fs::read(&to).ok();
                assert!(there == old || there.as_ref() == Some(&new), "{number}");
                let all: Vec<_> = names(&folder).iter().map(|name| get(&folder, name)).collect();
                assert!(old.iter().all(|old| all.contains(old)), "{number}");
                assert!(carried.is_err() || there.as_ref() == Some(&new), "{number}");
                assert!(
                    stops
                        || carried.is_ok()
                        || !names(&folder).iter().any(|name| name.contains("part")),
                    "{number}"
                );
                if disk.operations() <= number {
                    assert!(carried.is_ok() && number > 6);
                    done = true;
                    break;
                }
            }
            assert!(done);
        }
    }
}

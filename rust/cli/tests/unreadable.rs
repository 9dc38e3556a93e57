//! Files and folders that may not be read.

mod common;
use common::{has, ran};
use std::fs::{self, Permissions};
use std::os::unix::fs::{MetadataExt, PermissionsExt};
use std::os::unix::process::CommandExt;
use std::path::{Path, PathBuf};
use std::process::{Command, Stdio};

/// A user that is not root.
const NOBODY: u32 = 65534;

/// A folder that nobody can reach, with the program and files that nobody can read.
fn place() -> PathBuf {
    let place = std::env::temp_dir().join(format!("cockledrift-{}", std::process::id()));
    fs::create_dir_all(place.join("shut")).expect("a folder");
    fs::copy(env!("CARGO_BIN_EXE_cockledrift"), place.join("program")).expect("a copy");
    for name in ["good.3d", "shut.3d", "shut/in.3d"] {
        fs::copy(common::data("passage.v8.3d"), place.join(name)).expect("a copy");
    }
    fs::write(place.join("old.3d"), common::small("A", "@0")).expect("a file");
    let made = common::sh(&place, "$P catalogue . -o all.tsv && chmod 644 all.tsv");
    assert_eq!((made.code, &made.err[..]), (0, ""));
    let set = |name: &str, mode| {
        fs::set_permissions(place.join(name), Permissions::from_mode(mode)).expect("permissions");
    };
    [("shut.3d", 0), ("shut", 0), ("good.3d", 0o644), ("old.3d", 0o644), ("", 0o755)]
        .iter()
        .for_each(|(name, mode)| set(name, *mode));
    place
}

/// Runs the program there, as nobody where this is root.
fn run(place: &Path, line: &str) -> common::Ran {
    let mut command = Command::new(place.join("program"));
    command.current_dir(place).args(line.split(' ')).stdin(Stdio::null());
    if fs::metadata("/proc/self").expect("this process").uid() == 0 {
        command.uid(NOBODY).gid(NOBODY);
    }
    ran(command.output().expect("the program runs"))
}

#[test]
fn unreadable() {
    let place = place();
    let lines = [
        "info shut.3d",
        "list shut.3d",
        "list --raw shut.3d",
        "later good.3d shut.3d",
        "convert --to 8 shut.3d -o x.3d",
        "salvage shut.3d -o x.3d",
        "measure shut.3d",
        "diff shut.3d good.3d",
        "edit shut.3d --at 0 -o x.3d",
        "restore shut.3d good.3d",
        "restore good.3d shut.3d",
        "verify shut.3d",
        "list --csv shut.3d",
        "list --records shut.3d",
        "list --json shut.3d",
        "later shut.3d good.3d",
        "convert --to 7 shut.3d -o x.3d",
        "diff good.3d shut.3d",
        "edit old.3d --at 0 --with shut.3d -o x.3d",
    ];
    for line in lines {
        let ran = run(&place, line);
        let due = (2, "", "shut.3d: Permission denied\n");
        assert_eq!((ran.code, &ran.out[..], &ran.err[..]), due, "{line}");
    }
    let ran = run(&place, "check shut.3d good.3d");
    assert_eq!((ran.code, &ran.err[..]), (2, "shut.3d: Permission denied\n"));
    has(&ran.out, "2 files: 1 good, 0 refused, 1 not read\n");
    // Files that cannot be seen are not called missing.
    let ran = run(&place, "verify all.tsv");
    let due = "4 files in the catalogue: 2 as they were, 0 missing, 0 changed, 0 moved; 0 new, 2 not read\n";
    assert_eq!((ran.code, &ran.out[..]), (2, due));
    has(&ran.err, "shut: Permission denied\n");
    has(&ran.err, "shut.3d: Permission denied\n");
    let ran = run(&place, "check shut good.3d");
    assert_eq!((ran.code, &ran.err[..]), (2, "shut: Permission denied\n"));
    has(&ran.out, "good.3d: good, v8\n1 file: 1 good, 0 refused\n");
    let ran = run(&place, "catalogue .");
    assert_eq!((ran.code, &ran.out[..]), (2, ""));
    has(&ran.err, "./shut: Permission denied\n");
    fs::set_permissions(&place, Permissions::from_mode(0o555)).expect("permissions");
    {
        // Nor may it write there.
        for line in ["convert --to 8 good.3d -o x.3d", "restore good.3d old.3d"] {
            let ran = run(&place, line);
            assert_eq!((ran.code, &ran.out[..]), (2, ""), "{line}");
            has(&ran.err, "Permission denied");
        }
    }
    for folder in [&place, &place.join("shut")] {
        fs::set_permissions(folder, Permissions::from_mode(0o755)).expect("permissions");
    }
    fs::remove_dir_all(&place).expect("it is removed");
}

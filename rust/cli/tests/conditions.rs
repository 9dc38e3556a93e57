//! Every command on every kind of input: `@` in a line stands for its name. Exit
//! statuses and both streams are asserted, and that nothing is left behind.

mod common;
use common::{
    data_bytes, desk, folder, has, names, program, ran, run_in, sh, small, Ran, TOO_LONG,
};
use std::ffi::{OsStr, OsString};
use std::fs;
use std::io::Write;
use std::os::unix::ffi::OsStrExt;
use std::path::{Path, PathBuf};
use std::process::Stdio;

/// Lines that read a 3d file and say the same of one that they cannot take.
const READERS: [&str; 15] = [
    "info @",
    "list @",
    "list --raw @",
    "list --csv @",
    "list --records @",
    "list --json @",
    "later @ good.3d",
    "later good.3d @",
    "convert --to 8 @ -o out.3d",
    "convert --to 7 @ -o out.3d",
    "salvage @ -o out.3d",
    "measure @",
    "diff @ good.3d",
    "diff good.3d @",
    "edit @ --at 0 -o out.3d",
];

fn words(line: &str, name: &OsStr) -> Vec<OsString> {
    line.split(' ').map(|word| if word == "@" { name.into() } else { word.into() }).collect()
}

fn run(folder: &Path, line: &str, name: impl AsRef<OsStr>) -> Ran {
    run_in(folder, &words(line, name.as_ref()))
}

/// The folder of `desk`, with a house-written file that v7 can carry, and an archive.
fn place(name: &str) -> PathBuf {
    let folder = desk(name);
    fs::write(folder.join("nested.3d"), data_bytes("nested.v8.3d")).expect("a file");
    let ran = run_in(&folder, &["convert", "-q", "--to", "8", "nested.3d", "-o", "house.3d"]);
    assert_eq!((ran.code, &ran.err[..]), (0, ""));
    fs::create_dir(folder.join("arc")).expect("a folder");
    fs::copy(folder.join("house.3d"), folder.join("arc/a.3d")).expect("a copy");
    let ran = run_in(&folder, &["catalogue", "arc", "-o", "arc.tsv"]);
    assert_eq!((ran.code, &ran.out[..], &ran.err[..]), (0, "", ""));
    folder
}

/// Nothing is left of a command that ended with another status than 0.
#[track_caller]
fn nothing_left(folder: &Path, line: &str) {
    assert!(!folder.join("out.3d").exists(), "{line}");
    assert!(names(folder).iter().all(|name| !name.contains("part")), "{line}");
    assert_eq!(fs::read(folder.join("good.3d")).ok(), Some(data_bytes("passage.v8.3d")), "{line}");
}

#[track_caller]
fn answers(folder: &Path, line: &str, name: &str, due: (i32, &str, &str)) {
    let ran = run(folder, line, name);
    assert_eq!((ran.code, &ran.out[..], &ran.err[..]), due, "{line} with {name}");
    if due.0 != 0 {
        nothing_left(folder, line);
    }
}

/// A file that is refused: 1, and the same words everywhere.
#[track_caller]
fn refused(folder: &Path, name: &str, told: &str) {
    let err = format!("{name}: {told}\n");
    let raw = told.replace(" byte ", " ");
    let raw = format!("{}\n", raw.split(':').next().unwrap_or_default());
    for line in READERS {
        let out = if line.contains("--raw") { &raw[..] } else { "" };
        answers(folder, line, name, (1, out, &err));
    }
    let out = format!("{err}1 file: 0 good, 1 refused\n");
    answers(folder, "check @", name, (1, &out, ""));
}

/// Trouble with a file: 2, and the same words everywhere.
#[track_caller]
fn trouble(folder: &Path, name: &str, told: &str) {
    let err = format!("{name}: {told}\n");
    let others = [
        "verify @",
        "restore @ good.3d",
        "edit house.3d --at 0 --with @ -o out.3d",
        "restore -q @ new.3d",
        "info -q @",
    ];
    for line in READERS.iter().chain(&others) {
        answers(folder, line, name, (2, "", &err));
    }
    assert!(!folder.join("new.3d").exists());
}

#[test]
fn good() {
    let folder = place("c-good");
    let warned = "out.3d: warning: v7 does not say the normal style of ";
    for line in
        READERS.iter().chain(&["check @", "restore @ new.3d", "verify arc.tsv", "catalogue arc"])
    {
        let ran = run(&folder, line, "house.3d");
        let due = if line.starts_with("later good") || line.starts_with("diff") { 1 } else { 0 };
        // The two were made in the same second or not: later tells in other tests.
        assert!(ran.code == due || line.starts_with("later"), "{line}: {ran:?}");
        assert!(!ran.out.is_empty(), "{line}");
        assert!(ran.err.is_empty() || ran.err.starts_with(warned), "{line}: {}", ran.err);
        let _ = fs::remove_file(folder.join("out.3d"));
        nothing_left(&folder, line);
    }
}

#[test]
fn damaged() {
    let folder = place("c-damaged");
    let told = "refused 5 at byte 628: an item is unfinished, or the end is missing (try: cockledrift salvage)";
    let err = format!("cut.3d: {told}\n");
    for line in
        READERS.iter().filter(|line| !line.starts_with("later") && !line.starts_with("salv"))
    {
        let out = if line.contains("--raw") { "refused 5 at 628\n" } else { "" };
        answers(&folder, line, "cut.3d", (1, out, &err));
    }
    answers(&folder, "check @", "cut.3d", (1, &format!("{err}1 file: 0 good, 1 refused\n"), ""));
    // Only headers are judged.
    let ran = run(&folder, "later @ good.3d", "cut.3d");
    assert_eq!((ran.code, &ran.err[..]), (1, ""));
    has(&ran.out, "both have the same second\ncut.3d: 2026-11-15 17:03:45 UTC\n");
    let ran = run(&folder, "salvage @ -o saved.3d", "cut.3d");
    assert_eq!((ran.code, &ran.err[..]), (0, ""));
    has(&ran.out, "cut.3d: 33 records saved: ");
    let kept = "cut.3d and good.3d have the same second and other bytes: good.3d is kept (try: cockledrift diff; good.3d moved away can be restored)\n";
    answers(&folder, "restore @ good.3d", "cut.3d", (1, "", kept));
    fs::copy(folder.join("cut.3d"), folder.join("arc/cut.3d")).expect("a copy");
    let ran = run(&folder, "catalogue @", "arc");
    assert_eq!((ran.code, &ran.err[..]), (0, ""));
    has(&ran.out, "\tcut.3d\trefused 5\n# end 2\n");
    let ran = run(&folder, "verify @", "arc.tsv");
    assert_eq!((ran.code, &ran.err[..]), (1, ""));
    has(&ran.out, "new: cut.3d\n");
    answers(
        &folder,
        "verify @",
        "cut.3d",
        (2, "", "cut.3d: line 1 is none of a catalogue (try: cockledrift catalogue)\n"),
    );
    let ran = run(&folder, "edit house.3d --at 0 --with @ -o out.3d", "cut.3d");
    let due = "cut.3d: line 1 is no record (try: cockledrift list --records)\n";
    assert_eq!((ran.code, &ran.out[..], &ran.err[..]), (2, "", due));
}

#[test]
fn empty() {
    let folder = place("c-empty");
    refused(&folder, "empty.3d", "refused 1 at byte 0: no 3d file (try: another copy of it)");
    let kept = "empty.3d: refused 1 at byte 0: no 3d file: good.3d is kept (try: cockledrift check; or --even-if-unknown)\n";
    answers(&folder, "restore @ good.3d", "empty.3d", (1, "", kept));
    let kept = kept.replace("good.3d is", "empty.3d is");
    answers(&folder, "restore good.3d @", "empty.3d", (1, "", &kept));
    assert_eq!(fs::read(folder.join("empty.3d")).ok(), Some(Vec::new()));
    let due = "empty.3d: line 1 is none of a catalogue (try: cockledrift catalogue)\n";
    answers(&folder, "verify @", "empty.3d", (2, "", due));
    // No records at all.
    let ran = run(&folder, "edit house.3d --at 0 --with @ -o same.3d", "empty.3d");
    assert_eq!((ran.code, &ran.err[..]), (0, ""));
    assert_eq!(fs::read(folder.join("same.3d")).ok(), fs::read(folder.join("house.3d")).ok());
    // An empty archive.
    answers(&folder, "check @", "folder", (0, "0 files: 0 good, 0 refused\n", ""));
    let ran = run(&folder, "catalogue @ -o none.tsv", "folder");
    assert_eq!((ran.code, &ran.out[..], &ran.err[..]), (0, "", ""));
    let due = "0 files in the catalogue: 0 as they were, 0 missing, 0 changed, 0 moved; 0 new\n";
    answers(&folder, "verify @", "none.tsv", (0, due, ""));
}

#[test]
fn missing() {
    let folder = place("c-missing");
    for name in ["missing.3d", "missing/a.3d"] {
        trouble(&folder, name, "No such file or directory");
        let err = format!("{name}: No such file or directory\n");
        let out = "1 file: 0 good, 0 refused, 1 not read\n";
        answers(&folder, "check @", name, (2, out, &err));
        let due = format!("{err}{name}: no catalogue is made\n");
        answers(&folder, "catalogue @", name, (2, "", &due));
    }
    answers(
        &folder,
        "restore good.3d @",
        "missing/a.3d",
        (2, "", "missing/a.3d: No such file or directory\n"),
    );
    let ran = run(&folder, "info @", "");
    assert_eq!((ran.code, &ran.err[..]), (2, "(an empty name): No such file or directory\n"));
}

/// Much longer than memory, and one byte too long.
#[test]
fn too_long() {
    let folder = place("c-long");
    for name in ["huge.3d", "long.3d"] {
        refused(&folder, name, TOO_LONG);
        let due = format!("{name}: {TOO_LONG}\n");
        answers(&folder, "restore @ good.3d", name, (1, "", &due));
        let due = format!("{name}: line 1 is none of a catalogue (try: cockledrift catalogue)\n");
        answers(&folder, "verify @", name, (2, "", &due));
        let due = format!("{name}: line 1 is no record (try: cockledrift list --records)\n");
        answers(&folder, "edit house.3d --at 0 --with @ -o out.3d", name, (2, "", &due));
        let due = "the file is over 16,777,216 bytes: NAME is kept (try: cockledrift check; or --even-if-unknown)\n";
        let ran = run(&folder, "restore good.3d @", name);
        assert_eq!((ran.code, &ran.out[..]), (1, ""));
        has(&ran.err, &due.replace("NAME", name));
    }
    // A catalogue has the digest of all of a long file.
    fs::rename(folder.join("long.3d"), folder.join("arc/long.3d")).expect("it is moved");
    let longer = fs::File::create(folder.join("arc/longer.3d")).expect("a file");
    longer.set_len(1 << 26).expect("a file with holes");
    let ran = sh(
        &folder,
        "$P catalogue --sums arc | sha256sum -c --quiet && $P catalogue arc | grep long",
    );
    assert_eq!((ran.code, &ran.err[..]), (0, ""));
    has(&ran.out, "\t16777217\t-\t-\t-\t-\t-\tlong.3d\trefused 16\n");
    has(&ran.out, "\t67108864\t-\t-\t-\t-\t-\tlonger.3d\trefused 16\n");
    let ran = run(&folder, "verify @", "arc.tsv");
    assert_eq!((ran.code, &ran.err[..]), (1, ""));
    has(&ran.out, "new: long.3d\nnew: longer.3d\n");
}

/// With -q the exit status is the answer; nothing is printed but what goes wrong.
#[test]
fn quiet() {
    let folder = place("c-quiet");
    for line in printing().filter(|line| !line.starts_with("--")) {
        for file in ["house.3d", "cut.3d", "missing.3d"] {
            let due = run(&folder, line, file);
            let _ = fs::remove_file(folder.join("out.3d"));
            let _ = fs::remove_file(folder.join("new.3d"));
            let ran = run(&folder, &format!("{line} -q"), file);
            let _ = fs::remove_file(folder.join("out.3d"));
            let _ = fs::remove_file(folder.join("new.3d"));
            let err = if due.err.contains(": warning: ") { "" } else { &due.err[..] };
            assert_eq!(
                (ran.code, &ran.out[..], &ran.err[..]),
                (due.code, "", err),
                "{line} {file}"
            );
        }
    }
}

/// A file that is there stays, unless --force is given; then it is wholly new.
#[test]
fn what_is_there_is_kept() {
    let folder = place("c-kept");
    for line in [
        "convert --to 8 @ -o there",
        "convert --to 7 @ -o there",
        "salvage @ -o there",
        "edit @ --at 0 -o there",
        "catalogue arc -o there",
        "catalogue --sums arc -o there",
    ] {
        fs::write(folder.join("there"), "old").expect("a file");
        let ran = run(&folder, line, "house.3d");
        let due = (2, "", "there: it is there already (try: --force)\n");
        assert_eq!((ran.code, &ran.out[..], &ran.err[..]), due, "{line}");
        assert_eq!(fs::read(folder.join("there")).ok(), Some(b"old".to_vec()), "{line}");
        let ran = run(&folder, &format!("{line} --force -q"), "house.3d");
        assert_eq!((ran.code, &ran.out[..], &ran.err[..]), (0, "", ""), "{line}");
        let new = fs::read(folder.join("there")).expect("a file");
        let ran =
            sh(&folder, &format!("$P {} -", line.replace('@', "house.3d").replace(" there", "")));
        assert_eq!((ran.code, ran.bytes), (0, new), "{line}");
        // Nothing is written on a refusal, by force or not.
        fs::write(folder.join("there"), "old").expect("a file");
        if line.contains('@') && !line.starts_with("salvage") {
            let ran = run(&folder, &format!("{line} --force"), "cut.3d");
            assert_eq!((ran.code, &ran.out[..]), (1, ""), "{line}");
            assert_eq!(fs::read(folder.join("there")).ok(), Some(b"old".to_vec()), "{line}");
        }
    }
}

#[test]
fn folders_and_input_errors() {
    let folder = place("c-folder");
    for (name, words) in [("folder", "Is a directory"), ("/proc/self/mem", "Input/output error")] {
        trouble(&folder, name, words);
    }
    answers(&folder, "restore good.3d @", "folder", (2, "", "folder: Is a directory\n"));
    let due = "/proc/self/mem: Input/output error\n";
    answers(
        &folder,
        "check @",
        "/proc/self/mem",
        (2, "1 file: 0 good, 0 refused, 1 not read\n", due),
    );
    let due = "/dev/null: it is no plain file\n";
    answers(&folder, "restore good.3d @", "/dev/null", (2, "", due));
    answers(&folder, "restore --even-if-unknown good.3d @", "/dev/null", (2, "", due));
    let due = "good.3d: Not a directory\ngood.3d: no catalogue is made\n";
    answers(&folder, "catalogue @", "good.3d", (2, "", due));
    answers(
        &folder,
        "verify --folder good.3d @",
        "arc.tsv",
        (2, "", "good.3d: Not a directory (try: --folder, where the archive is now)\n"),
    );
}

/// From standard input the same comes as from a file.
#[test]
fn standard_input() {
    let folder = place("c-stdin");
    let fed = |line: &str, file: &str| {
        let mut command = program();
        command.current_dir(&folder).args(words(line, OsStr::new("-")));
        let file = fs::File::open(folder.join(file)).expect("a file");
        ran(command.stdin(Stdio::from(file)).output().expect("it runs"))
    };
    for file in ["house.3d", "cut.3d", "empty.3d", "long.3d"] {
        for line in READERS.iter().chain(&["check @", "restore @ good.3d"]) {
            let named = run(&folder, line, file);
            let made = fs::read(folder.join("out.3d")).ok();
            let _ = fs::remove_file(folder.join("out.3d"));
            let read = fed(line, file);
            assert_eq!(made, fs::read(folder.join("out.3d")).ok(), "{line}");
            let _ = fs::remove_file(folder.join("out.3d"));
            let due = [&named.out, &named.err].map(|text| text.replace(file, "standard input"));
            assert_eq!((read.code, [read.out, read.err]), (named.code, due), "{line} {file}");
        }
    }
    let ran = fed("verify @", "arc.tsv");
    assert_eq!((ran.code, &ran.err[..]), (0, ""));
    let ran = fed("catalogue @", "arc.tsv");
    assert_eq!((ran.code, &ran.out[..]), (2, ""));
    has(&ran.err, "standard input: no catalogue is made\n");
}

/// A pipe gives its bytes in parts, and ends late.
#[test]
fn a_slow_pipe() {
    let folder = place("c-slow");
    let mut command = program();
    command.current_dir(&folder).args(["check", "-"]).stdin(Stdio::piped()).stdout(Stdio::piped());
    let mut child = command.spawn().expect("it runs");
    let mut to = child.stdin.take().expect("its input");
    for part in data_bytes("passage.v8.3d").chunks(200) {
        to.write_all(part).and_then(|()| to.flush()).expect("it reads");
        std::thread::sleep(std::time::Duration::from_millis(5));
    }
    drop(to);
    let ran = ran(child.wait_with_output().expect("it ends"));
    assert_eq!(
        (ran.code, &ran.out[..]),
        (0, "standard input: good, v8\n1 file: 1 good, 0 refused\n")
    );
}

/// Lines that print something of a good file.
fn printing() -> impl Iterator<Item = &'static str> {
    let more = [
        "check @",
        "verify arc.tsv",
        "catalogue arc",
        "catalogue --sums arc",
        "restore @ new.3d",
        "--help",
        "--version",
    ];
    READERS.into_iter().chain(more)
}

#[test]
fn a_full_disk() {
    let folder = place("c-full");
    for line in printing().map(|line| line.replace('@', "house.3d")) {
        let _ = fs::remove_file(folder.join("out.3d"));
        let _ = fs::remove_file(folder.join("new.3d"));
        let ran = sh(&folder, &format!("$P {line} >/dev/full"));
        assert_eq!(ran.code, 2, "{line}: {}", ran.err);
        assert!(
            ran.err.ends_with("standard output: No space left on device\n"),
            "{line}: {}",
            ran.err
        );
    }
    // Where the file of -o and its folder have no room.
    let _ = fs::remove_file(folder.join("out.3d"));
    let _ = fs::remove_file(folder.join("new.3d"));
    let limit = "trap '' XFSZ; ulimit -f 1;";
    for (line, name) in [
        ("convert --to 8 nested.3d -o out.3d", "out.3d"),
        ("convert --to 7 nested.3d -o out.3d", "out.3d"),
        ("salvage nested.3d -o out.3d", "out.3d"),
        ("edit house.3d --at 0 -o out.3d", "out.3d"),
        ("restore house.3d new.3d", "new.3d"),
        (&format!("catalogue {} -o out.3d", common::data("").display()), "out.3d"),
    ] {
        let ran = sh(&folder, &format!("{limit} $P {line}"));
        let due = format!("{name}: File too large\n");
        assert_eq!((ran.code, &ran.out[..], &ran.err[..]), (2, "", &due[..]), "{line}");
        nothing_left(&folder, line);
    }
    assert!(!folder.join("new.3d").exists());
}

#[test]
fn a_closed_pipe() {
    let folder = place("c-pipe");
    for line in printing().map(|line| line.replace('@', "house.3d")) {
        let _ = fs::remove_file(folder.join("out.3d"));
        let _ = fs::remove_file(folder.join("new.3d"));
        let ran = sh(&folder, &format!("{{ $P {line}; echo $? >&2; }} 2>told | true; cat told"));
        let warned = ran.out.lines().filter(|line| !line.contains(": warning: "));
        let told: Vec<_> = warned.collect();
        assert!(told == ["0"] || told == ["1"], "{line}: {told:?}");
    }
}

/// Names with spaces, newlines, and bytes that are no UTF-8.
#[test]
fn names_of_any_bytes() {
    let folder = place("c-names");
    let names: [(&[u8], &str); 4] = [
        (b"a b.3d", "a b.3d"),
        (b"a\nb.3d", "a\\x0ab.3d"),
        (b"\xff\xfe.3d", "\\xff\\xfe.3d"),
        (b"\x1b[31m\xc2\x9b.3d", "\\x1b[31m\\xc2\\x9b.3d"),
    ];
    for (name, shown) in names {
        let name = OsStr::from_bytes(name);
        for file in ["house.3d", "cut.3d"] {
            fs::copy(folder.join(file), folder.join(name)).expect("a copy");
            for line in READERS.iter().chain(&["check @", "restore @ good.3d"]) {
                let due = run(&folder, line, file);
                let _ = fs::remove_file(folder.join("out.3d"));
                let ran = run(&folder, line, name);
                let _ = fs::remove_file(folder.join("out.3d"));
                let texts = [&due.out, &due.err].map(|text| text.replace(file, shown));
                assert_eq!((ran.code, [ran.out, ran.err]), (due.code, texts), "{line} {name:?}");
            }
        }
        // As TO, as -o, as RECORDS, as a catalogue and as its folder.
        fs::remove_file(folder.join(name)).expect("it is removed");
        let ran = run(&folder, "restore house.3d @", name);
        assert_eq!((ran.code, ran.out), (0, format!("{shown}: restored\n")));
        fs::remove_file(folder.join(name)).expect("it is removed");
        for line in ["salvage house.3d -o @", "edit house.3d --at 0 -o @"] {
            let ran = run(&folder, line, name);
            assert_eq!((ran.code, &ran.err[..]), (0, ""), "{line}");
            fs::remove_file(folder.join(name)).expect("it is there");
        }
        fs::write(folder.join(name), "station 0 1 2 3 new\n").expect("a file");
        let ran = run(&folder, "edit house.3d --at 0 --with @ -o out.3d", name);
        assert_eq!((ran.code, &ran.err[..]), (0, ""));
        fs::remove_file(folder.join("out.3d")).expect("it is there");
        fs::remove_file(folder.join(name)).expect("it is there");
        fs::create_dir(folder.join(name)).expect("a folder");
        fs::write(folder.join(name).join(name), small("A", "@0")).expect("a file");
        let mut with = OsString::from(name);
        with.push(".tsv");
        let made = run_in(&folder, &[&words("catalogue @ -o", name)[..], &[with.clone()]].concat());
        assert_eq!((made.code, &made.out[..], &made.err[..]), (0, "", ""));
        let ran = run(&folder, "verify @", &with);
        assert_eq!((ran.code, &ran.err[..]), (0, ""), "{}", ran.out);
        has(&ran.out, "1 file in the catalogue: 1 as they were");
        fs::remove_dir_all(folder.join(name)).expect("it is removed");
    }
    let _ = common::folder("c-names");
}

/// What --json prints is JSON, of schema 1, for every command.
#[test]
fn json_of_every_command() {
    let folder = place("c-json");
    // All of its bytes would be digested.
    fs::remove_file(folder.join("huge.3d")).expect("it is there");
    fs::write(folder.join("records.txt"), "station 0 1 2 3 new%ff%00%22%5c\n").expect("a file");
    let lines = [
        "info house.3d cut.3d good.3d",
        "list good.3d",
        "check . --color=always",
        "later good.3d house.3d",
        "convert --to 8 good.3d -o out.3d",
        "salvage cut.3d -o out.3d",
        "measure good.3d --survey river",
        "catalogue .",
        "verify arc.tsv --folder .",
        "restore house.3d new.3d",
        "restore house.3d new.3d",
        "diff good.3d house.3d",
        "edit house.3d --at 0 --with records.txt -o out.3d",
    ];
    for line in lines {
        let _ = fs::remove_file(folder.join("out.3d"));
        let ran = run(&folder, &format!("{line} --json"), "");
        assert!(ran.code < 2 && !ran.out.is_empty(), "{line}: {ran:?}");
        for object in ran.out.lines() {
            assert!(object.starts_with("{\"schema\": 1, "), "{line}: {object}");
            let rest = value(object).unwrap_or_else(|| panic!("{line}: {object}"));
            assert_eq!(rest, "", "{line}: {object}");
        }
    }
    let ran = run(&folder, "list --json @", "out.3d");
    has(&ran.out, "\"label\": \"new\u{fffd}\\u0000\\\"\\\\\", \"label_hex\": \"6e6577ff00225c\"");
}

/// What follows a value of JSON at the front of the text; none where there is no
/// value.
fn value(text: &str) -> Option<&str> {
    let text = text.trim_start_matches(' ');
    match text.chars().next()? {
        '{' => list(&text[1..], '}', |text| value(string(text)?.trim_start().strip_prefix(':')?)),
        '[' => list(&text[1..], ']', value),
        '"' => string(text),
        _ => ["true", "false", "null"].iter().find_map(|word| text.strip_prefix(word)).or_else(
            || {
                let digits = text.strip_prefix('-').unwrap_or(text);
                let rest = digits.trim_start_matches(|letter: char| letter.is_ascii_digit());
                (rest.len() < digits.len()).then_some(rest)
            },
        ),
    }
}

fn list<'t>(
    text: &'t str,
    end: char,
    item: impl Fn(&'t str) -> Option<&'t str>,
) -> Option<&'t str> {
    if let Some(rest) = text.strip_prefix(end) {
        return Some(rest);
    }
    let mut text = text;
    loop {
        let rest = item(text.trim_start())?.trim_start();
        match rest.strip_prefix(end) {
            Some(rest) => return Some(rest),
            None => text = rest.strip_prefix(',')?,
        }
    }
}

fn string(text: &str) -> Option<&str> {
    let mut letters = text.strip_prefix('"')?.char_indices();
    while let Some((at, letter)) = letters.next() {
        match letter {
            '"' => return Some(&text[at + 2..]),
            '\\' if letters.next()?.1 == 'u' => {
                for _ in 0..4 {
                    letters.next().filter(|(_, digit)| digit.is_ascii_hexdigit())?;
                }
            }
            '\\' => {}
            _ if letter < ' ' => return None,
            _ => {}
        }
    }
    None
}

/// A hostile title, label or name does not drive the terminal, whatever prints it.
#[test]
fn hostile_text() {
    let folder = folder("c-hostile");
    let bad = "\x1b]0;x\x07\u{9b}31m\u{202e}\r\u{7f}\u{200b}\t";
    let mut file = format!("Survex 3D Image File\nv8\n{bad}x\n{bad}x\n\0").into_bytes();
    let label = format!("{bad}\n,\"=");
    file.extend([0x82, 0, 0, label.len() as u8]);
    file.extend(label.bytes().chain([0; 12]));
    let whole = [&file[..], &[0, 0]].concat();
    fs::write(folder.join(format!("{bad}.3d")), &whole).expect("a file");
    fs::write(folder.join(format!("{bad}cut.3d")), &file).expect("a file");
    let (name, cut) = (format!("{bad}.3d"), format!("{bad}cut.3d"));
    let lines = [
        "info @",
        "info --json @",
        "list @",
        "list --raw @",
        "list --records @",
        "list --csv @",
        "list --json @",
        "check @",
        "check .",
        "check --json @",
        "later @ @",
        "measure @",
        "diff @ @",
        "catalogue .",
        "catalogue --json .",
        "salvage @ --force -o @x",
        "edit @ --at 0 --force -o @",
        "restore @ no",
        "convert --to 8 @ --force -o new.3d",
        "--@",
        "info --@",
        "@",
        "verify @",
    ];
    for line in lines {
        for name in [&name, &cut] {
            let words: Vec<_> = line.split(' ').map(|word| word.replace('@', name)).collect();
            let ran = run_in(&folder, &words);
            let plain =
                |letter: char| letter == '\n' || letter == '\t' || !cli::text::drives(letter);
            assert!(ran.out.chars().all(plain), "{line}: {:?}", ran.out);
            assert!(ran.err.chars().all(plain), "{line}: {:?}", ran.err);
        }
    }
    let ran = run_in(&folder, &["list", "--csv", &name]);
    has(&ran.out, "\n0,station,\"\\x1b]0;x\\x07\\xc2\\x9b31m\\xe2\\x80\\xae\\x0d\\x7f\\xe2\\x80\\x8b\\x09\\x0a,\"\"=\",underground,");
}

/// A 3d file does not go to a terminal, nor names that would drive it.
#[test]
fn bytes_for_a_terminal() {
    let folder = place("c-terminal");
    if sh(&folder, "command -v script").code != 0 {
        assert!(std::env::var_os("CI").is_none(), "script is not there");
        return common::skipped("what goes to a terminal: script is not there");
    }
    let due = "standard output: it is a terminal, and this is no plain text (try: -o FILE)\r\n";
    for line in ["convert --to 8 good.3d -o -", "salvage good.3d -o -", "edit house.3d --at 0 -o -"]
    {
        let ran = sh(&folder, &format!("script -qec \"$P {line}\" /dev/null"));
        assert_eq!((ran.code, &ran.out[..]), (2, due), "{line}");
    }
    let sums = "script -qec \"$P catalogue --sums arc\" /dev/null";
    let ran = sh(&folder, sums);
    assert_eq!(ran.code, 0);
    has(&ran.out, "  arc/a.3d\r\n");
    fs::write(folder.join("arc/\x1b[31m.3d"), small("A", "@0")).expect("a file");
    let ran = sh(&folder, sums);
    assert_eq!((ran.code, &ran.out[..]), (2, due));
}

/// Times are told in UTC wherever the machine is.
#[test]
fn time_zones() {
    let folder = place("c-zones");
    for line in [
        "info good.3d",
        "later house.3d good.3d",
        "catalogue arc",
        "restore --dry-run --even-if-older cut.3d house.3d",
    ] {
        let here = sh(&folder, &format!("TZ=UTC LC_ALL=C $P {line}"));
        let there = sh(&folder, &format!("TZ=America/New_York LC_ALL=de_DE.UTF-8 $P {line}"));
        assert_eq!((here.code, here.out, here.err), (there.code, there.out, there.err), "{line}");
    }
}

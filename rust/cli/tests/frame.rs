//! Arguments, help, exit statuses and messages.

mod common;
use common::{data, desk, fed, folder, has, program, root, run, run_in, sh, TOO_LONG};
use std::ffi::OsStr;
use std::fs;
use std::os::unix::ffi::OsStrExt;
use std::process::Stdio;

#[test]
fn help_of_all() {
    let ran = run(&["--help"]);
    assert_eq!((ran.code, &ran.err[..]), (0, ""));
    for command in cli::table::COMMANDS {
        has(&ran.out, &format!("\n  {:<10} {}", command.name, command.words));
        let own = run(&[command.name, "--help"]);
        assert_eq!((own.code, &own.err[..]), (0, ""));
        has(&own.out, &format!("Usage: cockledrift {} [OPTION].. ", command.name));
        command.flags.iter().for_each(|flag| has(&own.out, flag.words));
        assert_eq!(run(&["help", command.name]).out, own.out);
        assert_eq!(run(&[command.name, "x", "-h"]).out, own.out);
    }
}

#[test]
fn version() {
    let ran = run(&["--version"]);
    assert_eq!((ran.code, &ran.err[..]), (0, ""));
    has(&ran.out, "cockledrift 0.1.0\n");
    let identity = ran.out.split("rattle logic=").nth(1).expect("the toolchain").trim();
    assert!(identity.len() == 64 && identity.bytes().all(|byte| byte.is_ascii_hexdigit()));
}

#[test]
fn usage() {
    let cases: [(&[&str], &str); 10] = [
        (&[], "cockledrift: no command (try: cockledrift --help)\n"),
        (&["nothing"], "cockledrift: no command nothing (try: cockledrift --help)\n"),
        (&["help", "no"], "cockledrift: no command no (try: cockledrift --help)\n"),
        (&["info"], "cockledrift info: takes FILE.., not 0 names (try: cockledrift info --help)\n"),
        (&["list", "a", "b"], "cockledrift list: takes FILE, not 2 names (try: cockledrift list --help)\n"),
        (&["list", "--no"], "cockledrift list: no option --no (try: cockledrift list --help)\n"),
        (&["list", "-x"], "cockledrift list: no option -x (try: cockledrift list --help)\n"),
        (&["list", "--raw=1", "a"], "cockledrift list: --raw takes no value (try: cockledrift list --help)\n"),
        (&["list", "--color"], "cockledrift list: --color takes WHEN (try: cockledrift list --help)\n"),
        (&["later", "-", "-"], "cockledrift later: standard input (-) can be read once (try: cockledrift later --help)\n"),
    ];
    for (words, due) in cases {
        let ran = run(words);
        assert_eq!((ran.code, &ran.out[..], &ran.err[..]), (2, "", due), "{words:?}");
    }
}

#[test]
fn names_of_any_bytes() {
    let folder = folder("names");
    let names: [&[u8]; 5] = [b"a b.3d", b"a\nb.3d", b"\xff\xfe.3d", b"-o", b"--raw"];
    let shown = ["a b.3d", "a\\x0ab.3d", "\\xff\\xfe.3d", "-o", "--raw"];
    for (name, shown) in names.into_iter().zip(shown) {
        let name = OsStr::from_bytes(name);
        fs::copy(data("passage.v8.3d"), folder.join(name)).expect("a copy");
        let ran = run_in(&folder, &[OsStr::new("check"), OsStr::new("--"), name]);
        let due = format!("{shown}: good, v8\n1 file: 1 good, 0 refused\n");
        assert_eq!((ran.code, &ran.out[..], &ran.err[..]), (0, &due[..], ""));
    }
    let ran =
        run_in(&folder, &[OsStr::new("check"), OsStr::new("--json"), OsStr::from_bytes(names[2])]);
    has(
        &ran.out,
        "{\"schema\": 1, \"file\": \"\u{fffd}\u{fffd}.3d\", \"file_hex\": \"fffe2e3364\"",
    );
}

#[test]
fn a_full_disk_and_a_closed_pipe() {
    let folder = desk("streams");
    for line in ["info good.3d", "list good.3d", "list --raw good.3d", "check good.3d", "--help"] {
        let ran = sh(&folder, &format!("$P {line} >/dev/full"));
        let due = "standard output: No space left on device\n";
        assert_eq!((ran.code, &ran.err[..]), (2, due), "{line}");
        let mut child = program();
        child
            .current_dir(&folder)
            .args(line.split(' '))
            .stdout(Stdio::piped())
            .stderr(Stdio::piped());
        let mut child = child.spawn().expect("it runs");
        drop(child.stdout.take());
        let output = child.wait_with_output().expect("it ends");
        assert!(output.stderr.is_empty(), "{line}: {output:?}");
    }
    let ran = sh(&folder, "i=0; while [ $i -lt 3000 ]; do echo good.3d; i=$((i+1)); done | xargs $P check | head -n 1");
    assert_eq!((&ran.out[..], &ran.err[..]), ("good.3d: good, v8\n", ""));
}

/// The results that did not go out are trouble, although the answer is no.
#[test]
fn a_full_disk_and_a_refusal() {
    let ran = sh(&desk("both"), "$P list --raw cut.3d >/dev/full");
    assert_eq!(ran.code, 2);
    has(&ran.err, "cut.3d: refused 5 at byte 628");
    has(&ran.err, "standard output: No space left on device\n");
}

/// A good file of 16 MiB, and one of a byte more.
#[test]
fn sixteen_mebibytes() {
    let folder = folder("sixteen");
    let mut file = b"Survex 3D Image File\nv8\nA\n@0\n\0".to_vec();
    let mut old = 0;
    let mut station = |label: usize| {
        file.extend(b"\x82\0\xff");
        file.extend((old as u32).to_le_bytes());
        file.push(0xff);
        file.extend((label as u32).to_le_bytes());
        file.extend(std::iter::repeat_n(b'x', label).chain([0; 12]));
        old = label;
        file.len()
    };
    while station(4096) < 16_777_216 - 8300 {}
    let left = 16_777_216 - station(4000) - 2;
    station(left - 24);
    file.extend([0, 0]);
    assert_eq!(file.len(), 16_777_216);
    fs::write(folder.join("most.3d"), &file).expect("a file");
    for line in
        ["info", "check", "list --raw", "measure", "convert --to 8 -o c.3d", "salvage -o s.3d"]
    {
        let ran = sh(&folder, &format!("$P {line} most.3d >out"));
        let due = if line == "measure" {
            (1, "most.3d: refused 21 at 0: no leg of this survey (try: cockledrift list, which has the names of surveys)\n")
        } else {
            (0, "")
        };
        assert_eq!((ran.code, &ran.err[..]), due, "{line}");
    }
    file.push(0);
    fs::write(folder.join("more.3d"), &file).expect("a file");
    let ran = run_in(&folder, &["check", "more.3d"]);
    assert_eq!(ran.code, 1);
    has(&ran.out, &format!("more.3d: {TOO_LONG}\n"));
}

#[test]
fn colours() {
    let file = data("passage.v8.3d");
    let words = |more: &'static [&str]| {
        let mut command = program();
        command.arg("check").args(more).arg(&file);
        command
    };
    let painted = |mut command: std::process::Command| {
        String::from_utf8_lossy(&command.output().expect("it runs").stdout)
            .contains("\x1b[32mgood\x1b[0m")
    };
    assert!(!painted(words(&[])));
    assert!(painted(words(&["--color=always"])));
    assert!(!painted(words(&["--color", "never"])));
    let mut plain = words(&[]);
    plain.env("NO_COLOR", "1");
    assert!(!painted(plain));
    let ran = run(&["check", "--color=sometimes", "x"]);
    assert_eq!((ran.code, &ran.err[..]), (2, "cockledrift check: --color takes auto, always or never (try: cockledrift check --help)\n"));
}

#[test]
fn quiet() {
    let folder = desk("quiet");
    let ran = run_in(&folder, &["check", "-q", "good.3d"]);
    assert_eq!((ran.code, &ran.out[..], &ran.err[..]), (0, "", ""));
    let ran = run_in(&folder, &["check", "-q", "cut.3d"]);
    assert_eq!((ran.code, &ran.out[..], &ran.err[..]), (1, "", ""));
    let ran = run_in(&folder, &["info", "--quiet", "missing.3d"]);
    assert_eq!((ran.code, &ran.out[..]), (2, ""));
    has(&ran.err, "missing.3d: No such file or directory");
}

#[test]
fn standard_input() {
    let file = common::data_bytes("passage.v8.3d");
    assert_eq!(
        fed(&["check", "-"], &file).out,
        "standard input: good, v8\n1 file: 1 good, 0 refused\n"
    );
    let ran = fed(&["info", "-"], &vec![b'x'; 17_000_000]);
    let due = format!("standard input: {TOO_LONG}\n");
    assert_eq!((ran.code, &ran.out[..], &ran.err[..]), (1, "", &due[..]));
    let ran = sh(&folder("closed"), "$P info - <&-");
    assert_eq!((ran.code, &ran.out[..]), (1, ""));
}

/// What stands in share/ is what the table gives. With COCKLEDRIFT_WRITE set it is
/// written anew.
#[test]
fn man_page_and_completions() {
    let share = root().join("rust/cli/share");
    let texts = [
        ("cockledrift.1", cli::man::page()),
        ("cockledrift.bash", cli::completions::bash()),
        ("_cockledrift", cli::completions::zsh()),
        ("cockledrift.fish", cli::completions::fish()),
    ];
    for (name, due) in texts {
        if std::env::var_os("COCKLEDRIFT_WRITE").is_some() {
            fs::write(share.join(name), &due).expect("it is written");
        }
        let there = fs::read_to_string(share.join(name)).expect("it is there");
        assert!(
            there == due,
            "share/{name} is not what the table gives: COCKLEDRIFT_WRITE=1 cargo test -p cli"
        );
    }
}

/// The commands of README.md print what stands there: those at its top in the
/// repository, the others in a folder with an archive and its copies.
#[test]
fn readme() {
    let page = fs::read_to_string(root().join("README.md")).expect("the page is there");
    assert!(
        page.starts_with("# Cockledrift\n\n```text\n$ cockledrift "),
        "it begins with their use"
    );
    let walk = folder("readme");
    for name in ["archive", "backup"] {
        fs::create_dir(walk.join(name)).expect("a folder");
        for file in ["passage.v8.3d", "loops.v6.3d"] {
            fs::copy(data(file), walk.join(name).join(file)).expect("a copy");
        }
    }
    let blocks = page.split("```text\n").skip(1).map(|rest| rest.split("```").next());
    let blocks: Vec<_> = blocks.map(|block| block.expect("an end")).collect();
    assert_eq!(blocks.len(), 2);
    for (block, folder) in blocks.into_iter().zip([root(), walk]) {
        let mut out = String::new();
        for line in block.lines().filter_map(|line| line.strip_prefix("$ ")) {
            let ran = sh(&folder, &format!("cockledrift() {{ \"$P\" \"$@\"; }}; {line}"));
            assert_eq!(ran.err, "", "{line}");
            out += &format!("$ {line}\n{}", ran.out);
        }
        assert_eq!(out, block);
    }
    for command in cli::table::COMMANDS {
        has(&page, &format!("cockledrift {}", command.name));
    }
}

/// Progress is told on a terminal alone, and after a second; so are colours, but for
/// the second.
#[test]
fn on_a_terminal() {
    let folder = desk("terminal");
    if sh(&folder, "command -v script && command -v mkfifo").code != 0 {
        assert!(std::env::var_os("CI").is_none(), "script or mkfifo is not there");
        return common::skipped("what is told on a terminal: script or mkfifo is not there");
    }
    let slow = "rm -f slow.3d; mkfifo slow.3d; (sleep 1.5; cat good.3d >slow.3d) &";
    let ran = sh(&folder, &format!("{slow} script -qec \"$P check slow.3d good.3d\" /dev/null"));
    has(&ran.out, "\r1 of 2 files \r\x1b[K");
    has(&ran.out, "good.3d: \x1b[32mgood\x1b[0m, v8");
    let ran = sh(&folder, &format!("{slow} $P check slow.3d good.3d"));
    assert_eq!((ran.code, &ran.err[..]), (0, ""));
    let ran = sh(&folder, "script -qec \"NO_COLOR=1 $P check good.3d cut.3d\" /dev/null");
    assert!(!ran.out.contains('\x1b') && !ran.out.contains(" of "), "{}", ran.out);
}

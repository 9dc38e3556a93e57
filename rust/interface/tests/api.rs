//! The programs of docs/API.md are those of examples/api, and print what stands
//! there.

use interface::tools::{compiled, folder, make, printed, root, run, SANITIZERS};
use std::env;
use std::fs;
use std::path::{Path, PathBuf};
use std::process::Command;

const PROGRAMS: [&str; 3] = ["list", "edit", "compare"];

fn page() -> String {
    fs::read_to_string(root().join("docs/API.md")).expect("the page is there")
}

/// The page has each program of this language as it stands in examples/api.
fn has_programs(language: &str, end: &str) {
    for name in PROGRAMS {
        let path = root().join(format!("examples/api/{name}.{end}"));
        let program = fs::read_to_string(&path).expect("the program is there");
        let block = format!("```{language}\n{program}```\n");
        assert!(page().contains(&block), "docs/API.md has not the text of {path:?}");
    }
}

/// The block of commands and what they print, under this heading.
fn session(heading: &str) -> String {
    let page = page();
    let section = page.split(&format!("\n## {heading}\n")).nth(1).expect("the heading is there");
    let block = section.split("```text\n").nth(1).expect("a block of commands");
    block.split("```").next().expect("its end").to_string()
}

/// A folder of this name with what the commands read.
fn survey(name: &str) -> PathBuf {
    let folder = folder(env!("CARGO_TARGET_TMPDIR"), name);
    for name in ["old.3d", "new.3d", "list.c", "list.py", "edit.py", "compare.py"] {
        let from = root().join("examples/api").join(name);
        fs::copy(from, folder.join(name)).expect("a file is copied");
    }
    folder
}

/// Runs the commands of the block in a folder, each by `program` of its words,
/// and answers the block as it comes out.
fn played(heading: &str, folder: &Path, program: impl Fn(&str) -> Command) -> String {
    let mut out = String::new();
    let block = session(heading);
    let commands: Vec<_> = block.lines().filter_map(|line| line.strip_prefix("$ ")).collect();
    assert!(commands.len() >= 4, "{commands:?}");
    for line in commands {
        let (name, words) = line.split_once(' ').expect("a program and its words");
        let mut command = program(name);
        let output = run(command.args(words.split(' ')).current_dir(folder));
        let lines = String::from_utf8_lossy(&output.stdout).into_owned();
        let errors = String::from_utf8_lossy(&output.stderr);
        assert_eq!(errors, "", "{line}");
        assert_eq!(output.status.success(), !lines.starts_with("refused"), "{line}");
        out += &format!("$ {line}\n{lines}");
    }
    out
}

#[test]
fn the_programs_in_c_run() {
    has_programs("c", "c");
    let folder = survey("api-c");
    printed(&mut make(&folder));
    for name in PROGRAMS {
        let source = root().join(format!("examples/api/{name}.c"));
        compiled("g++", &["-fsyntax-only"], &source, &folder, &folder.join(name));
        compiled("gcc", &SANITIZERS, &source, &folder, &folder.join(name));
    }
    let out = played("C", &folder, |name| Command::new(folder.join(name)));
    assert_eq!(out, session("C"));
}

#[test]
fn the_programs_in_rust_run() {
    has_programs("rust", "rs");
    let out = played("Rust", &survey("api-rust"), |name| {
        Command::new(match name {
            "list" => env!("CARGO_BIN_EXE_api-list"),
            "edit" => env!("CARGO_BIN_EXE_api-edit"),
            "compare" => env!("CARGO_BIN_EXE_api-compare"),
            _ => panic!("no program {name}"),
        })
    });
    assert_eq!(out, session("Rust"));
}

#[test]
fn the_programs_in_python_run() {
    has_programs("python", "py");
    let folder = survey("api-python");
    printed(&mut make(&folder));
    let out = played("Python", &folder, |name| {
        assert_eq!(name, "python3");
        let mut command = Command::new(name);
        command.env("COCKLEDRIFT_LIBRARY", folder.join("libcockledrift.so"));
        command.env("PYTHONPATH", root().join("python")).env("PYTHONDONTWRITEBYTECODE", "1");
        command
    });
    assert_eq!(out, session("Python"));
}

/// What the page says of the static library: two objects, and nothing but
/// memcpy and memset from outside.
#[test]
fn the_static_library_asks_for_little() {
    let folder = folder(env!("CARGO_TARGET_TMPDIR"), "api-archive");
    printed(&mut make(&folder));
    let archive = folder.join("libcockledrift.a");
    let symbols = printed(Command::new("nm").arg("--undefined-only").arg(&archive));
    let mut asked: Vec<_> =
        symbols.lines().filter_map(|line| line.trim_start().strip_prefix("U ")).collect();
    asked.retain(|name| *name != "_GLOBAL_OFFSET_TABLE_");
    asked.sort();
    assert_eq!(asked, ["memcpy", "memset"]);
    let members = printed(Command::new("ar").arg("t").arg(&archive));
    assert_eq!(members.lines().count(), 2, "{members}");
}

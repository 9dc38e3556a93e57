//! Running the program as a person would.
#![allow(dead_code)]

use std::ffi::OsStr;
use std::fs;
use std::io::Write;
use std::path::{Path, PathBuf};
use std::process::{Command, Output, Stdio};

/// How the program ended, and both streams.
#[derive(Debug)]
pub struct Ran {
    pub code: i32,
    pub out: String,
    pub err: String,
    pub bytes: Vec<u8>,
}

pub fn program() -> Command {
    let mut command = Command::new(env!("CARGO_BIN_EXE_cockledrift"));
    command.env_remove("NO_COLOR");
    command
}

pub fn ran(output: Output) -> Ran {
    Ran {
        code: output.status.code().expect("it ends by itself"),
        out: String::from_utf8_lossy(&output.stdout).into_owned(),
        err: String::from_utf8_lossy(&output.stderr).into_owned(),
        bytes: output.stdout,
    }
}

/// Runs the program on these words.
pub fn run<W: AsRef<OsStr>>(words: &[W]) -> Ran {
    ran(program().args(words).stdin(Stdio::null()).output().expect("the program runs"))
}

/// Runs it in a folder.
pub fn run_in<W: AsRef<OsStr>>(folder: &Path, words: &[W]) -> Ran {
    let mut command = program();
    ran(command.current_dir(folder).args(words).stdin(Stdio::null()).output().expect("it runs"))
}

/// Runs it with these bytes as standard input.
pub fn fed<W: AsRef<OsStr>>(words: &[W], input: &[u8]) -> Ran {
    let mut command = program();
    let command = command.args(words).stdin(Stdio::piped());
    let mut child = command.stdout(Stdio::piped()).stderr(Stdio::piped()).spawn().expect("it runs");
    let (mut to, input) = (child.stdin.take().expect("its standard input"), input.to_vec());
    // The program may close its input early.
    let writer = std::thread::spawn(move || drop(to.write_all(&input)));
    let output = child.wait_with_output().expect("it ends");
    writer.join().expect("the input is written");
    ran(output)
}

/// Runs a line of sh, with the program as `$P`.
pub fn sh(folder: &Path, line: &str) -> Ran {
    let mut command = Command::new("sh");
    command.args(["-c", line]).env("P", env!("CARGO_BIN_EXE_cockledrift")).current_dir(folder);
    ran(command.stdin(Stdio::null()).output().expect("sh runs"))
}

pub fn root() -> PathBuf {
    let here = Path::new(env!("CARGO_MANIFEST_DIR"));
    here.ancestors().nth(2).expect("the package is in rust/").to_path_buf()
}

/// A file of rust/testdata.
pub fn data(name: &str) -> PathBuf {
    root().join("rust/testdata").join(name)
}

pub fn data_bytes(name: &str) -> Vec<u8> {
    fs::read(data(name)).expect("a file of testdata")
}

/// The 3d files of rust/testdata and of its folder for departures.
pub fn survex_files() -> Vec<PathBuf> {
    let folders = [root().join("rust/testdata"), root().join("rust/testdata/departures")];
    let mut files: Vec<_> = folders
        .iter()
        .flat_map(|folder| fs::read_dir(folder).expect("testdata"))
        .map(|entry| entry.expect("an entry").path())
        .filter(|path| path.extension() == Some(OsStr::new("3d")))
        .collect();
    files.sort();
    files
}

/// An empty folder of this name.
pub fn folder(name: &str) -> PathBuf {
    let folder = Path::new(env!("CARGO_TARGET_TMPDIR")).join("cli").join(name);
    let _ = fs::remove_dir_all(&folder);
    fs::create_dir_all(&folder).expect("cargo's folder for tests can be written to");
    folder
}

/// A folder with the files that every command has to take: good, damaged, empty,
/// one byte too long, and of another kind.
pub fn desk(name: &str) -> PathBuf {
    let folder = folder(name);
    let good = data_bytes("passage.v8.3d");
    fs::write(folder.join("good.3d"), &good).expect("a file");
    fs::write(folder.join("cut.3d"), &good[..good.len() - 9]).expect("a file");
    fs::write(folder.join("empty.3d"), b"").expect("a file");
    fs::write(folder.join("other.3d"), b"no 3d file at all").expect("a file");
    let long = fs::File::create(folder.join("long.3d")).expect("a file");
    long.set_len(16_777_217).expect("a long file");
    let huge = fs::File::create(folder.join("huge.3d")).expect("a file");
    huge.set_len(1 << 36).expect("a file with holes");
    fs::create_dir(folder.join("folder")).expect("a folder");
    folder
}

/// Says that something is not tested here, past the capture of cargo's tests.
pub fn skipped(words: &str) {
    writeln!(std::io::stderr(), "NOT TESTED: {words}").expect("standard error");
}

/// Whether the text stands there.
#[track_caller]
pub fn has(text: &str, part: &str) {
    assert!(text.contains(part), "no {part:?} in {text:?}");
}

/// Names in a folder, sorted.
pub fn names(folder: &Path) -> Vec<String> {
    let entries = fs::read_dir(folder).expect("a folder");
    let name = |entry: fs::DirEntry| entry.file_name().to_string_lossy().into_owned();
    let mut names: Vec<_> = entries.map(|entry| name(entry.expect("an entry"))).collect();
    names.sort();
    names
}

/// A v8 file without records, with this title and time line.
pub fn small(title: &str, time: &str) -> Vec<u8> {
    format!("Survex 3D Image File\nv8\n{title}\n{time}\n\0\0\0").into_bytes()
}

/// What is said of a file over the limit.
pub const TOO_LONG: &str = "refused 16 at byte 0: the file is over 16,777,216 bytes \
    (try: Survex's own programs: nothing here takes more)";

/// Every way in which one input of a command can be bad: what is in `before` comes
/// before its name, what is in `after` behind it.
#[track_caller]
pub fn bad_inputs(folder: &Path, before: &[&str], after: &[&str]) {
    let cases = [
        ("empty.3d", 1, "empty.3d: refused 1 at byte 0: no 3d file (try: another copy of it)\n"),
        ("other.3d", 1, "other.3d: refused 1 at byte 0: no 3d file (try: another copy of it)\n"),
        ("long.3d", 1, &format!("long.3d: {TOO_LONG}\n")),
        ("huge.3d", 1, &format!("huge.3d: {TOO_LONG}\n")),
        ("missing.3d", 2, "missing.3d: No such file or directory"),
        ("folder", 2, "folder: Is a directory"),
        ("/proc/self/mem", 2, "/proc/self/mem: Input/output error"),
    ];
    for (name, code, words) in cases {
        let line = [before, &[name], after].concat();
        let ran = run_in(folder, &line);
        assert_eq!((ran.code, &ran.out[..]), (code, ""), "{line:?}: {}", ran.err);
        has(&ran.err, words);
    }
}

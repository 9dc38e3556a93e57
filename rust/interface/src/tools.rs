//! The programs that build and run what is tested.

use std::fs;
use std::path::{Path, PathBuf};
use std::process::{Command, Output, Stdio};

/// What a program that is to be linked is compiled with.
pub const WARNINGS: [&str; 4] = ["-Wall", "-Wextra", "-pedantic", "-Werror"];

/// The sanitizers: whatever they find ends the program.
pub const SANITIZERS: [&str; 4] =
    ["-g", "-O1", "-fsanitize=address,undefined", "-fno-sanitize-recover=all"];

/// The repository's folder.
pub fn root() -> PathBuf {
    let here = Path::new(env!("CARGO_MANIFEST_DIR"));
    here.ancestors().nth(2).expect("the package is in rust/").to_path_buf()
}

/// An empty folder of this name, in cargo's folder for tests.
pub fn folder(tests: &str, name: &str) -> PathBuf {
    let folder = Path::new(tests).join(name);
    let _ = fs::remove_dir_all(&folder);
    fs::create_dir_all(&folder).expect("cargo's folder for tests can be written to");
    folder
}

/// Runs the program, and answers what it printed and how it ended.
pub fn run(command: &mut Command) -> Output {
    let output = command.stdin(Stdio::null()).output();
    output.unwrap_or_else(|error| panic!("{command:?}: {error}"))
}

/// Runs a program that has to end well, and answers what it printed.
pub fn printed(command: &mut Command) -> String {
    let Output { status, stdout, stderr } = run(command);
    let [stdout, stderr] = [stdout, stderr].map(|text| String::from_utf8_lossy(&text).into_owned());
    assert!(status.success(), "{command:?}: {status}\n{stdout}\n{stderr}");
    stdout
}

/// `make` of the libraries in the repository's folder, in `out`. The program has
/// tests of its own.
pub fn make(out: &Path) -> Command {
    let mut make = Command::new("make");
    make.current_dir(root()).arg(format!("OUT={}", out.display())).arg("libraries");
    make
}

/// Compiles a program and links it with the static library in `library`.
pub fn compiled(compiler: &str, flags: &[&str], source: &Path, library: &Path, out: &Path) {
    let mut command = Command::new(compiler);
    command.args(WARNINGS).args(flags).arg("-I").arg(root().join("include"));
    let language = if compiler == "g++" { "c++" } else { "c" };
    command.args(["-x", language]).arg(source).args(["-x", "none"]);
    printed(command.arg(library.join("libcockledrift.a")).arg("-o").arg(out));
}

/// The files that Survex's own programs have made.
pub fn survex_files() -> Vec<PathBuf> {
    let entries = fs::read_dir(root().join("rust/testdata")).expect("the files are there");
    let paths = entries.map(|entry| entry.expect("a file").path());
    let mut files: Vec<_> =
        paths.filter(|path| path.extension().is_some_and(|end| end == "3d")).collect();
    files.sort();
    assert!(files.len() > 12, "{} files", files.len());
    files
}

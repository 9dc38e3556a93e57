//! The examples that list a file, in C, C++, Rust and Python, print the same,
//! and what the proved lister prints. Those in C run under the sanitizers. The
//! proved program that lists a file by steps prints what the lister does.

use generate::coder::{Coder, Form};
use generate::files;
use interface::tools::{
    compiled, folder, make, printed, root, run, survex_files, SANITIZERS, WARNINGS,
};
use interface::wanted;
use std::env;
use std::fs;
use std::io::Write;
use std::path::{Path, PathBuf};
use std::process::{Command, Stdio};

/// The libraries, in a folder of this name.
fn libraries(name: &str) -> PathBuf {
    let folder = folder(env!("CARGO_TARGET_TMPDIR"), name);
    printed(&mut make(&folder));
    folder
}

/// Each file that Survex made, one that is cut short, and one that is none.
fn files(folder: &Path) -> Vec<PathBuf> {
    let mut files = survex_files();
    let whole = fs::read(&files[0]).expect("a file");
    for (name, bytes) in [("cut.3d", &whole[..whole.len() - 9]), ("none.3d", b"")] {
        let path = folder.join(name);
        fs::write(&path, bytes).expect("a file is written");
        files.push(path);
    }
    files
}

/// Runs the example on every file: its lines, and 1 for a refusal.
fn lists_alike(folder: &Path, example: impl Fn(&Path) -> Command) {
    let mut refused = 0;
    for file in files(folder) {
        let due = interface::list::list(&fs::read(&file).expect("a file"));
        let output = run(&mut example(&file));
        let code = if due.is_ok() { Some(0) } else { Some(1) };
        refused += due.is_err() as usize;
        let due = due.unwrap_or_else(|refusal| format!("{refusal}\n"));
        let lines = String::from_utf8_lossy(&output.stdout);
        let more = String::from_utf8_lossy(&output.stderr);
        assert_eq!((&lines[..], &more[..], output.status.code()), (&due[..], "", code), "{file:?}");
    }
    assert_eq!(refused, 2);
}

/// The example in C, by this compiler.
fn lists_in_c(compiler: &str, flags: &[&str]) {
    let folder = libraries(&format!("list-{compiler}{}", flags.concat()));
    let (source, program) = (root().join("examples/list.c"), folder.join("list"));
    compiled(compiler, &[flags, &SANITIZERS].concat(), &source, &folder, &program);
    lists_alike(&folder, |file| {
        let mut command = Command::new(&program);
        command.arg(file);
        command
    });
}

#[test]
fn lists_in_c_by_gcc() {
    lists_in_c("gcc", &["-std=c11"]);
}

#[test]
fn lists_in_cpp_by_gpp() {
    lists_in_c("g++", &["-std=c++11"]);
}

/// Older C has no static assertions: the header has to do without.
#[test]
fn the_header_is_c99_too() {
    let folder = folder(env!("CARGO_TARGET_TMPDIR"), "c99");
    let mut gcc = Command::new("gcc");
    gcc.args(WARNINGS).args(["-std=c99", "-c", "-I"]).arg(root().join("include"));
    printed(gcc.arg(root().join("examples/list.c")).arg("-o").arg(folder.join("list.o")));
}

/// A layout that is not the library's does not compile.
#[test]
fn another_layout_does_not_compile() {
    let folder = folder(env!("CARGO_TARGET_TMPDIR"), "layout");
    let header = fs::read_to_string(root().join("include/cockledrift.h")).expect("the header");
    let swapped = header.replacen("size_t bytes; ", "uint32_t bytes; ", 1);
    assert_ne!(swapped, header);
    let compiles = |text: &str| {
        let path = folder.join("header.h");
        fs::write(&path, text).expect("a file is written");
        let mut gcc = Command::new("gcc");
        gcc.args(["-std=c11", "-fsyntax-only", "-x", "c"]).arg(path);
        run(&mut gcc).status.success()
    };
    assert!(compiles(&header));
    assert!(!compiles(&swapped));
}

#[test]
fn lists_in_rust() {
    lists_alike(&folder(env!("CARGO_TARGET_TMPDIR"), "list-rust"), |file| {
        let mut command = Command::new(env!("CARGO_BIN_EXE_list"));
        command.arg(file);
        command
    });
}

#[test]
fn lists_in_python() {
    let folder = libraries("list-python");
    lists_alike(&folder, |file| {
        let mut command = Command::new("python3");
        command.env("COCKLEDRIFT_LIBRARY", folder.join("libcockledrift.so.0"));
        command.env("PYTHONPATH", root().join("python")).env("PYTHONDONTWRITEBYTECODE", "1");
        command.arg(root().join("examples/list.py")).arg(file);
        command
    });
}

/// A program in Rattle, which `rt` has built and run by the time the gate comes
/// here. Elsewhere it may be missing.
fn proved(name: &str) -> Option<PathBuf> {
    let program = root().join("target/bin").join(name);
    let there = program.exists() || env::var_os("CI").is_some();
    if !there {
        println!("there is no {}: `tools/programs {name}` builds it", program.display());
    }
    there.then_some(program)
}

/// What a program prints for these bytes. It reads no more of them than it takes,
/// so not all may be written.
fn fed(program: &Path, bytes: &[u8]) -> Vec<u8> {
    let mut command = Command::new(program);
    let mut child = command.stdin(Stdio::piped()).stdout(Stdio::piped()).spawn().expect("it runs");
    let _ = child.stdin.take().expect("its input").write_all(bytes);
    child.wait_with_output().expect("it ends").stdout
}

#[test]
fn the_proved_lister_prints_the_same() {
    let Some(lister) = proved("lister") else { return };
    for path in survex_files() {
        let file = fs::read(&path).expect("a file");
        let due = interface::list::list(&file).expect("a good file");
        assert_eq!(String::from_utf8_lossy(&fed(&lister, &file)), due, "{path:?}");
    }
}

/// Sixteen stations of one label, the last of which has so many bytes more: their
/// sheet takes 49,146 bytes and those.
fn stations(more: usize) -> Vec<u8> {
    let mut file = Coder::short(8);
    file.station(4, (0, &[b'a'; 3055], Form::Least), [1, 2, 3]);
    for _ in 0..14 {
        file.station(4, (0, b"", Form::Least), [4, 5, 6]);
    }
    file.station(4, (0, &vec![b'b'; more], Form::Least), [7, 8, 9]).close().bytes.clone()
}

/// Whole files, damaged ones, and sheets and inputs at the program's limits and
/// past them.
#[test]
fn the_lister_by_steps_prints_the_same() {
    let (Some(lister), Some(steps)) = (proved("lister"), proved("steplister")) else { return };
    let mut inputs: Vec<_> =
        survex_files().iter().map(|path| fs::read(path).expect("a file")).collect();
    let rounds = (0..24).flat_map(|round| files::round(wanted::seed(), round));
    inputs.extend(rounds.map(|(_, file)| file));
    inputs.extend([0, 6, 7, 1000].map(stations));
    inputs.extend([16384, 16385, 70000].map(|size| vec![b'S'; size]));
    let mut seen = [0; 4];
    for input in &inputs {
        let [due, text] = [&lister, &steps].map(|program| fed(program, input));
        assert!(text == due, "{input:02x?}: {}", String::from_utf8_lossy(&text));
        let kinds: [&[u8]; 4] = [b"version", b"refused 11 at", b"refused", b"too long"];
        let kind = kinds.iter().position(|kind| due.starts_with(kind));
        seen[kind.expect("a text of the lister")] += 1;
    }
    println!("{} inputs: listed, 11, refused, too long: {seen:?}", inputs.len());
    assert!(seen.iter().all(|&count| count > 0), "{seen:?}");
}

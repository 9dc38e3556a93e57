//! `make install-library` and `make uninstall`, and programs that find the library
//! by what was installed. The program's part is tested in rust/cli.

use interface::tools::{folder, make, printed, root, WARNINGS};
use std::fs;
use std::path::{Path, PathBuf};
use std::process::Command;

/// The paths below a folder, without the folder.
fn below(folder: &Path) -> Vec<String> {
    let mut found = Vec::new();
    let mut folders = vec![folder.to_path_buf()];
    while let Some(next) = folders.pop() {
        for entry in fs::read_dir(next).expect("a folder") {
            let path = entry.expect("an entry").path();
            if path.is_dir() {
                folders.push(path);
            } else {
                let name = path.strip_prefix(folder).expect("a path below");
                found.push(name.display().to_string());
            }
        }
    }
    found.sort();
    found
}

/// `make` with this aim, PREFIX /opt/c and this DESTDIR.
fn aim(target: &str, out: &Path, destination: &Path) {
    let mut make = make(out);
    make.arg(format!("DESTDIR={}", destination.display())).args(["PREFIX=/opt/c", target]);
    printed(&mut make);
}

const INSTALLED: [&str; 7] = [
    "opt/c/include/cockledrift.h",
    "opt/c/lib/libcockledrift.a",
    "opt/c/lib/libcockledrift.so",
    "opt/c/lib/libcockledrift.so.0",
    "opt/c/lib/libcockledrift.so.0.1.0",
    "opt/c/lib/pkgconfig/cockledrift.pc",
    "opt/c/share/cockledrift/cockledrift.py",
];

/// DESTDIR and PREFIX, and nothing left behind.
#[test]
fn installs_and_uninstalls() {
    let all = folder(env!("CARGO_TARGET_TMPDIR"), "install");
    let (out, destination) = (all.join("out"), all.join("destination"));
    aim("install-library", &out, &destination);
    assert_eq!(below(&destination), INSTALLED);
    let pc = destination.join("opt/c/lib/pkgconfig/cockledrift.pc");
    let pc = fs::read_to_string(pc).expect("the pkg-config file");
    assert!(pc.contains("prefix=/opt/c\nlibdir=/opt/c/lib\n"), "{pc}");
    let other = destination.join("opt/c/lib/other.a");
    fs::write(&other, "").expect("a file is written");
    aim("uninstall", &out, &destination);
    assert_eq!(below(&destination), ["opt/c/lib/other.a"]);
}

/// What pkg-config says of what was installed.
fn flags(prefix: &Path, arguments: &[&str]) -> Vec<String> {
    let mut pkg_config = Command::new("pkg-config");
    pkg_config.env("PKG_CONFIG_PATH", prefix.join("lib/pkgconfig")).args(arguments);
    let said = printed(pkg_config.arg("cockledrift"));
    said.split_whitespace().map(str::to_string).collect()
}

/// Builds the example as its first lines say, and lists a file with it.
fn lists(prefix: &Path, name: &str, more: &[&str]) -> String {
    let program = prefix.join(name);
    let mut gcc = Command::new("gcc");
    gcc.args(WARNINGS).arg(root().join("examples/list.c")).args(more);
    gcc.args(flags(prefix, &["--cflags", "--libs"])).arg("-o").arg(&program);
    printed(&mut gcc);
    let mut command = Command::new(program);
    command.env("LD_LIBRARY_PATH", prefix.join("lib"));
    printed(command.arg(root().join("rust/testdata/loops.v8.3d")))
}

fn installed(name: &str) -> PathBuf {
    let prefix = folder(env!("CARGO_TARGET_TMPDIR"), name).join("prefix");
    let mut make = make(&prefix.with_file_name("out"));
    printed(make.arg(format!("PREFIX={}", prefix.display())).arg("install-library"));
    prefix
}

/// With the shared library and with the static one.
#[test]
fn programs_find_it_by_pkg_config() {
    let prefix = installed("pkg-config");
    let due = fs::read(root().join("rust/testdata/loops.v8.3d")).expect("a file");
    let due = interface::list::list(&due).expect("a good file");
    assert_eq!(lists(&prefix, "shared", &[]), due);
    assert_eq!(lists(&prefix, "static", &["-static"]), due);
    let needs = |name| printed(Command::new("readelf").arg("-d").arg(prefix.join(name)));
    assert!(needs("shared").contains("[libcockledrift.so.0]"));
    assert!(!needs("static").contains("libcockledrift"));
    let version = flags(&prefix, &["--modversion"]);
    assert_eq!(version, [env!("CARGO_PKG_VERSION")]);
}

/// The shared library exports the functions of the header and nothing else.
#[test]
fn the_shared_library_exports_the_header() {
    let prefix = installed("exports");
    let library = prefix.join("lib/libcockledrift.so");
    let symbols = printed(Command::new("nm").args(["-D", "--defined-only"]).arg(library));
    let names: Vec<_> = symbols.lines().filter_map(|line| line.split(' ').nth(2)).collect();
    let header = fs::read_to_string(prefix.join("include/cockledrift.h")).expect("the header");
    assert!(names.contains(&"cockledrift_message") && names.contains(&"cockledrift_read"));
    for name in names {
        assert!(
            header.contains(&format!(" {name}(")) || header.contains(&format!("*{name}(")),
            "{name}"
        );
    }
}

/// The Python module, from where it was installed.
#[test]
fn python_finds_it() {
    let prefix = installed("python-installed");
    let mut python = Command::new("python3");
    python.env("PYTHONPATH", prefix.join("share/cockledrift"));
    python.env("LD_LIBRARY_PATH", prefix.join("lib")).env_remove("COCKLEDRIFT_LIBRARY");
    let said = printed(python.args(["-c", "import cockledrift; print(cockledrift.message(16))"]));
    assert_eq!(said, "the file is over 16,777,216 bytes\n");
}

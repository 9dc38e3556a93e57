//! Links the proved library. Without an archive, or without one of its
//! functions, the build fails and says how to make it: nothing stands in.
//! The refusals' names and words come from the header for C.

use std::path::{Path, PathBuf};
use std::{env, fs};

/// An archive `lib{name}.a`, which `tools/staticlib {name}` makes, and its
/// functions after `cockledrift_`.
struct Archive {
    name: &'static str,
    functions: &'static [&'static str],
}

const ARCHIVES: [Archive; 1] = [Archive {
    name: "capi",
    functions: &[
        "read",
        "salvage",
        "read_strict",
        "write",
        "write_v7",
        "convert",
        "edit",
        "compare",
        "reach",
        "viewer_legs",
        "summary",
        "entrances",
        "summary_update",
        "open",
        "step",
        "next",
        "sha256",
        "sha256_start",
        "sha256_update",
        "sha256_finish",
    ],
}];

fn main() {
    refusals(&root().join("include/cockledrift.h"));
    let folder = root().join("target/staticlib");
    println!("cargo::rustc-link-search=native={}", folder.display());
    for archive in &ARCHIVES {
        link(&folder, archive);
    }
}

/// The repository's folder.
fn root() -> PathBuf {
    let here = env::var_os("CARGO_MANIFEST_DIR").expect("cargo names this package's folder");
    Path::new(&here).ancestors().nth(2).expect("the package is in rust/").to_path_buf()
}

/// Writes `refusals.rs`: a constant for each line `X(COCKLEDRIFT_NAME, number,
/// "words")` of the header, and the words of each number.
fn refusals(header: &Path) {
    println!("cargo::rerun-if-changed={}", header.display());
    let text = fs::read_to_string(header).expect("the header for C is there");
    let (mut names, mut words) = (String::new(), String::new());
    for line in text.lines().filter_map(|line| line.trim().strip_prefix("X(COCKLEDRIFT_")) {
        let line = line.trim_end_matches('\\').trim_end();
        let mut parts = line.strip_suffix(')').unwrap_or(line).splitn(3, ", ");
        let [Some(name), Some(number), Some(said)] = [(); 3].map(|()| parts.next()) else {
            panic!("no refusal of the header: {line}");
        };
        names += &format!("/// {}.\npub const {name}: u8 = {number};\n", said.trim_matches('"'));
        words += &format!("{number} => {said},\n");
    }
    let text = format!(
        "/// The number of each refusal, by name.\npub mod number {{\n{names}}}\n\
         fn words(number: u8) -> &'static str {{\nmatch number {{\n{words}\
         _ => \"no such number\",\n}}\n}}\n"
    );
    let out = PathBuf::from(env::var_os("OUT_DIR").expect("cargo names a folder to write to"));
    fs::write(out.join("refusals.rs"), text).expect("cargo's folder can be written to");
}

/// Links an archive that has all its functions.
fn link(folder: &Path, Archive { name, functions }: &Archive) {
    let path = folder.join(format!("lib{name}.a"));
    println!("cargo::rerun-if-changed={}", path.display());
    match fs::read(&path) {
        Ok(archive) => {
            for function in functions.iter().filter(|function| !holds(&archive, function)) {
                fail(name, &format!("lib{name}.a has no cockledrift_{function}"));
            }
            println!("cargo::rustc-link-lib=static={name}");
        }
        Err(error) => fail(name, &format!("{}: {error}", path.display())),
    }
}

/// Whether the archive names the function. Names there end in a zero byte.
fn holds(archive: &[u8], function: &str) -> bool {
    let symbol = format!("cockledrift_{function}\0");
    archive.windows(symbol.len()).any(|part| part == symbol.as_bytes())
}

/// Fails the build once all archives have been looked at.
fn fail(name: &str, what: &str) {
    println!(
        "cargo::error=the proved library is missing: {what}. \
         `tools/staticlib {name}` in the repository's folder builds it."
    );
}

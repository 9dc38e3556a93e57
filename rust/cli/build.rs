//! Takes the identity of the toolchain that proved the library out of its archive.

use std::path::{Path, PathBuf};
use std::{env, fs};

const MARK: &[u8] = b"rattle logic=";

fn main() {
    let here = env::var_os("CARGO_MANIFEST_DIR").expect("cargo names this package's folder");
    let root = Path::new(&here).ancestors().nth(2).expect("the package is in rust/");
    let archive: PathBuf = root.join("target/staticlib/libcapi.a");
    println!("cargo::rerun-if-changed={}", archive.display());
    let identity = fs::read(&archive).ok().and_then(|bytes| identity(&bytes));
    println!("cargo::rustc-env=TOOLCHAIN={}", identity.unwrap_or_else(|| "unknown".into()));
}

/// The hex digits behind the mark.
fn identity(archive: &[u8]) -> Option<String> {
    let at = archive.windows(MARK.len()).position(|part| part == MARK)? + MARK.len();
    let digits = archive[at..].iter().take_while(|byte| byte.is_ascii_hexdigit());
    Some(digits.map(|&byte| char::from(byte)).collect())
}

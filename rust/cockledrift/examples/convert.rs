//! The 3d file on standard input as a v8 file on standard output, or with `--to 7`
//! as a v7 file. The files in `rust/testdata/written` and `written_v7` are made so.

use std::env;
use std::error::Error;
use std::io::{self, Read, Write};

fn main() -> Result<(), Box<dyn Error>> {
    let words: Vec<String> = env::args().skip(1).collect();
    let write = match words.iter().map(String::as_str).collect::<Vec<_>>()[..] {
        [] | ["--to", "8"] => cockledrift::write_vec,
        ["--to", "7"] => cockledrift::write_v7_vec,
        _ => return Err("convert [--to 7 | --to 8]".into()),
    };
    let mut file = Vec::new();
    io::stdin().read_to_end(&mut file)?;
    io::stdout().write_all(&write(&cockledrift::read_vec(&file)?)?)?;
    Ok(())
}

//! The tables of docs/PERFORMANCE.md (#112), each printed ready to be pasted there.
//!
//! A call is one row of `rows::ROWS`; `growth` and `memory` take every row too.

mod growth;
mod made;
mod memory;
mod options;
mod processes;
mod real;
mod rows;
mod text;
mod times;
mod timing;

use options::Options;
use std::process::ExitCode;

/// A table's name, and what prints it.
type Table = (&'static str, fn(&Options));

const TABLES: [Table; 5] = [
    ("times", times::print),
    ("growth", growth::print),
    ("memory", memory::print),
    ("real", real::print),
    ("processes", processes::print),
];

pub fn main() -> ExitCode {
    let options = match Options::given(std::env::args().skip(1)) {
        Ok(options) => options,
        Err(message) => {
            eprintln!("{message}");
            return ExitCode::from(2);
        }
    };
    for (name, print) in TABLES {
        if options.wants_table(name) {
            print(&options);
            println!();
        }
    }
    ExitCode::SUCCESS
}

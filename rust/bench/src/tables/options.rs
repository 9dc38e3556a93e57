//! What the command line asks for.

use std::path::PathBuf;

const USAGE: &str = "\
bench [OPTION]..: the tables of docs/PERFORMANCE.md, all of them where none is named
  --tables NAMES   of times, growth, memory, real, processes; NAMES are parted by commas
  --rows WORDS     only calls whose name has one of these words, parted by commas
  --repeat N       repetitions of each call (21)
  --mib N          the made files' size in MiB, for times, real and processes (10)
  --sizes NUMBERS  the made files' sizes in MiB, for growth and memory (1,2,4,8,16)
  --file PATH      a real 3d file, beside those that are found; may be given again
bench turns [N]: one file after the other, as before these tables";

pub struct Options {
    tables: Vec<String>,
    rows: Vec<String>,
    pub repeat: usize,
    pub mib: usize,
    pub sizes: Vec<usize>,
    pub files: Vec<PathBuf>,
}

impl Options {
    /// From the arguments; or what to say of them.
    pub fn given(mut arguments: impl Iterator<Item = String>) -> Result<Options, String> {
        let mut options = Options {
            tables: Vec::new(),
            rows: Vec::new(),
            repeat: 21,
            mib: 10,
            sizes: vec![1, 2, 4, 8, 16],
            files: Vec::new(),
        };
        while let Some(name) = arguments.next() {
            let value = arguments.next().ok_or(USAGE)?;
            match name.as_str() {
                "--tables" => options.tables = parts(&value),
                "--rows" => options.rows = parts(&value),
                "--repeat" => options.repeat = number(&value)?,
                "--mib" => options.mib = number(&value)?,
                "--sizes" => {
                    let sizes: Result<_, _> =
                        parts(&value).iter().map(|size| number(size)).collect();
                    options.sizes = sizes?;
                }
                "--file" => options.files.push(value.into()),
                _ => return Err(USAGE.into()),
            }
        }
        Ok(options)
    }

    pub fn wants_table(&self, name: &str) -> bool {
        self.tables.is_empty() || self.tables.iter().any(|table| table == name)
    }

    pub fn wants_row(&self, name: &str) -> bool {
        self.rows.is_empty() || self.rows.iter().any(|words| name.contains(words.as_str()))
    }
}

fn parts(value: &str) -> Vec<String> {
    value.split(',').map(String::from).collect()
}

/// A number from 1 to 64: more repetitions or MiB than that are a slip.
fn number(value: &str) -> Result<usize, String> {
    match value.parse() {
        Ok(number @ 1..=64) => Ok(number),
        _ => Err(format!("no number from 1 to 64: {value}\n{USAGE}")),
    }
}

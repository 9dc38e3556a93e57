//! Whole processes over the same file: what a user would pick instead. Output goes to the
//! null device.

use super::made::Made;
use super::options::Options;
use super::real::{largest, short};
use super::text::Table;
use super::timing::middle;
use std::path::{Path, PathBuf};
use std::process::{Command, Stdio};
use std::time::Instant;
use std::{env, fs};

/// Runs of each program, or fewer where fewer repetitions are asked for.
const RUNS: usize = 3;

/// A program and its arguments; `FILE` is the file, `OUT` one that is written anew.
struct Program {
    name: &'static str,
    arguments: &'static [&'static str],
    /// Whether it is this repository's own, beside this program.
    ours: bool,
}

const PROGRAMS: [Program; 9] = [
    Program { name: "cockledrift", arguments: &["list", "FILE"], ours: true },
    Program { name: "dump3d", arguments: &["FILE"], ours: false },
    Program { name: "cockledrift", arguments: &["list", "--csv", "FILE"], ours: true },
    Program { name: "survexport", arguments: &["--csv", "FILE", "/dev/null"], ours: false },
    Program { name: "survexport", arguments: &["--json", "FILE", "/dev/null"], ours: false },
    Program {
        name: "cockledrift",
        arguments: &["convert", "--to", "8", "FILE", "-o", "-"],
        ours: true,
    },
    Program { name: "survexport", arguments: &["--3d", "FILE", "OUT"], ours: false },
    Program { name: "examples/sha256", arguments: &["FILE"], ours: true },
    Program { name: "sha256sum", arguments: &["FILE"], ours: false },
];

pub fn print(options: &Options) {
    let runs = options.repeat.min(RUNS);
    println!("### Programs\n");
    println!("Whole processes, output to the null device; median ms of {runs} runs, by turns.\n");
    let folder = env::temp_dir().join(format!("cockledrift-bench-{}", std::process::id()));
    fs::create_dir_all(&folder).expect("a folder for made files");
    let files = files(options, &folder);
    let names: Vec<&str> =
        ["program"].into_iter().chain(files.iter().map(|(name, _)| name.as_str())).collect();
    let mut table = Table::new(&names);
    let mut missing = Vec::new();
    let found: Vec<_> = PROGRAMS
        .iter()
        .filter_map(|program| match place(program) {
            Some(place) => Some((program, place)),
            None => {
                missing.push(program.name);
                None
            }
        })
        .collect();
    let mut columns = Vec::new();
    for (_, path) in &files {
        columns.push(turns(&found, path, &folder.join("out.3d"), runs));
    }
    for (number, (program, _)) in found.iter().enumerate() {
        let mut line = vec![format!("`{} {}`", program.name, program.arguments.join(" "))];
        line.extend(columns.iter().map(|times| match &times[number] {
            Some(times) => format!("{:.1}", middle(times.clone())),
            None => "fails".into(),
        }));
        table.line(line);
    }
    table.print();
    missing.dedup();
    for name in missing {
        println!("\n`{name}` was not found here: not measured.");
    }
    fs::remove_dir_all(&folder).expect("the folder of made files");
}

/// The made files, written to the folder, and the largest real one.
fn files(options: &Options, folder: &Path) -> Vec<(String, PathBuf)> {
    let mut files = Vec::new();
    for made in [Made::Legs(8), Made::Cave(8)] {
        let path = folder.join(format!("{}.3d", made.words().replace(' ', "-")));
        fs::write(&path, made.file(options.mib << 20)).expect("a made file");
        files.push((format!("{}, {} MiB", made.words(), options.mib), path));
    }
    files.extend(largest(options).into_iter().take(1).map(|(path, _)| (short(&path), path)));
    files
}

/// Where a program is: beside this one, or on the path.
fn place(program: &Program) -> Option<PathBuf> {
    if program.ours {
        let here = env::current_exe().ok()?;
        return Some(here.parent()?.join(program.name)).filter(|path| path.is_file());
    }
    let folders = env::var_os("PATH")?;
    env::split_paths(&folders).map(|folder| folder.join(program.name)).find(|path| path.is_file())
}

/// The times of each program over a file; nothing for one that fails.
fn turns(
    programs: &[(&Program, PathBuf)],
    file: &Path,
    out: &Path,
    runs: usize,
) -> Vec<Option<Vec<f64>>> {
    let mut times = vec![Some(Vec::new()); programs.len()];
    for turn in 0..runs {
        for place in 0..programs.len() {
            let number = (turn + place) % programs.len();
            let (program, path) = &programs[number];
            let took = run(program, path, file, out);
            times[number] = times[number].take().zip(took).map(|(mut times, took)| {
                times.push(took);
                times
            });
        }
    }
    times
}

fn run(program: &Program, path: &Path, file: &Path, out: &Path) -> Option<f64> {
    let mut command = Command::new(path);
    for argument in program.arguments {
        match *argument {
            "FILE" => command.arg(file),
            "OUT" => command.arg(out),
            other => command.arg(other),
        };
    }
    command.stdin(Stdio::null()).stdout(Stdio::null()).stderr(Stdio::null());
    let start = Instant::now();
    let status = command.status().ok()?;
    let took = start.elapsed().as_secs_f64() * 1000.0;
    status.success().then_some(took)
}

//! Reading real files, and the made caves: the proved reader beside `rust/plain`.

use super::made::{Case, Made};
use super::options::Options;
use super::text::{grouped, Table};
use super::timing::middle;
use std::fs;
use std::hint::black_box;
use std::path::{Path, PathBuf};
use std::time::Instant;

/// Where real files are looked for, folders within them too: this repository's, made by
/// Survex of its own survey files, and Therion's samples as Debian's package has them.
const FOLDERS: [&str; 2] =
    [concat!(env!("CARGO_MANIFEST_DIR"), "/../testdata"), "/usr/share/doc/therion/examples"];

/// How many of the largest are read.
const MOST: usize = 6;

/// A small file is read so often in a row that one time is of about this many bytes.
const BYTES_A_TIME: usize = 1 << 20;

pub fn print(options: &Options) {
    println!("### Real files\n");
    println!("Reading; microseconds a file, the median of {} repetitions.\n", options.repeat);
    let mut table =
        Table::new(&["file", "version", "bytes", "records", "µs", "`plain`'s µs", "ratio"]);
    let mut files: Vec<(String, Vec<u8>)> =
        largest(options).into_iter().map(|(path, file)| (short(&path), file)).collect();
    for version in [8, 7] {
        let made = Made::Cave(version);
        files.push((format!("made, {}", made.words()), made.file(options.mib << 20)));
    }
    for (name, file) in files {
        table.line(line(name, file, options.repeat));
    }
    table.print();
}

/// The largest files that read, and those that were asked for.
pub fn largest(options: &Options) -> Vec<(PathBuf, Vec<u8>)> {
    let mut paths = Vec::new();
    for folder in FOLDERS {
        gather(Path::new(folder), &mut paths);
    }
    let read = |path: PathBuf| fs::read(&path).ok().map(|file| (path, file));
    let reads = |file: &[u8]| {
        matches!(plain::read(file, &mut []), plain::Answer::Refused { number: 11, .. })
    };
    // v4 to v6 are read as v7 is. `written` has what the library wrote of the others.
    let wanted = |(path, file): &(PathBuf, Vec<u8>)| {
        let made = path.iter().any(|part| part.to_string_lossy().starts_with("written"));
        !made && reads(file) && matches!(file[22], b'3' | b'7' | b'8')
    };
    let mut files: Vec<_> = paths.into_iter().filter_map(read).filter(wanted).collect();
    files.sort_by_key(|(path, file)| (std::cmp::Reverse(file.len()), path.clone()));
    files.truncate(MOST);
    for path in &options.files {
        let (path, file) = read(path.clone()).expect("a file that was asked for");
        assert!(reads(&file), "{} does not read", path.display());
        files.insert(0, (path, file));
    }
    files
}

fn gather(folder: &Path, paths: &mut Vec<PathBuf>) {
    for entry in fs::read_dir(folder).into_iter().flatten().flatten() {
        let path = entry.path();
        if path.is_dir() {
            gather(&path, paths);
        } else if path.extension().is_some_and(|end| end == "3d") {
            paths.push(path);
        }
    }
}

/// A path's last two parts.
pub fn short(path: &Path) -> String {
    let parts: Vec<_> = path.iter().map(|part| part.to_string_lossy()).collect();
    parts[parts.len().saturating_sub(2)..].join("/")
}

fn line(name: String, file: Vec<u8>, repeats: usize) -> Vec<String> {
    let case = Case::of(file);
    let mut sheet = vec![0xa5; case.sheet.len()];
    let calls = BYTES_A_TIME.div_ceil(case.file.len());
    let mut times = [Vec::new(), Vec::new()];
    for turn in 0..2 * repeats {
        // Each is the first every other time.
        let which = (turn + turn / 2) % 2;
        sheet.fill(0xa5);
        let start = Instant::now();
        for _ in 0..calls {
            let file = black_box(&case.file[..]);
            let records = match which {
                0 => cockledrift::read(file, &mut sheet).map_or(0, |done| done.records),
                _ => match plain::read(file, &mut sheet) {
                    plain::Answer::Done { records, .. } => records,
                    plain::Answer::Refused { .. } => 0,
                },
            };
            assert_eq!(records, case.records);
        }
        times[which].push(start.elapsed().as_secs_f64() * 1e6 / calls as f64);
        assert!(sheet == case.sheet, "{name}: the sheet differs");
    }
    let ratio = middle(times[0].iter().zip(&times[1]).map(|(one, other)| one / other).collect());
    let [ours, other] = times.map(middle);
    vec![
        name,
        format!("v{}", case.file[22] - b'0'),
        grouped(case.file.len()),
        grouped(case.records),
        format!("{ours:.2}"),
        format!("{other:.2}"),
        format!("{ratio:.2}"),
    ]
}

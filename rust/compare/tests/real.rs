//! Real files: read alike by both, and the records agree with dump3d's text
//! where document 01 and Survex agree (see testdata/README.md).

mod dump;

use compare::{disagree, hex};
use generate::record::v7_twin;
use second::Answer;
use std::fs;
use std::path::{Path, PathBuf};
use std::process::Command;

fn folder() -> PathBuf {
    Path::new(env!("CARGO_MANIFEST_DIR")).join("../testdata")
}

/// The .3d files of a folder, by name.
fn files(folder: &Path) -> Vec<PathBuf> {
    let entries = fs::read_dir(folder).expect("the test data");
    let mut files: Vec<_> = entries.map(|entry| entry.unwrap().path()).collect();
    files.retain(|path| path.extension().is_some_and(|end| end == "3d"));
    files.sort();
    files
}

/// The sheet and record count, or the refusal.
type Read = Result<(Vec<u8>, usize), (u8, usize)>;

/// The version, and what both readers make of the file.
fn read(path: &Path) -> (u8, Read) {
    let file = fs::read(path).unwrap();
    let name = path.display();
    let answer = compare::read(&file)
        .unwrap_or_else(|difference| disagree(&format!("{name}"), &file, &difference));
    if let Err(difference) = compare::convert(&file) {
        disagree(&format!("converting {name}"), &file, &difference);
    }
    let version = file[22] - b'0';
    match answer {
        Answer::Refused { number, place } => (version, Err((number, place))),
        Answer::Done { records, .. } => {
            (version, Ok((cockledrift::read_vec(&file).expect("a sheet"), records)))
        }
    }
}

#[test]
fn records_agree_with_dump3d() {
    let files = files(&folder());
    assert_eq!(files.len(), 17);
    let mut compared = 0;
    for path in files {
        let (version, read) = read(&path);
        let (sheet, records) = read.expect("a file that reads");
        let text = fs::read_to_string(path.with_extension("dump")).unwrap();
        let said = dump::said(&text);
        let ours = dump::told(&sheet, version);
        assert_eq!(said.head, ours.head, "{}", path.display());
        assert_eq!(ours.lines.len(), records);
        for (number, (said, ours)) in said.lines.iter().zip(&ours.lines).enumerate() {
            assert_eq!(said, ours, "record {number} of {}", path.display());
        }
        assert_eq!(said.lines.len(), ours.lines.len(), "{}", path.display());
        compared += records;
    }
    println!("records compared with dump3d: {compared}");
}

/// What dump3d says of the v8 files that we write, which are stored with its text.
#[test]
fn written_files_agree_with_dump3d() {
    let written = files(&folder().join("written"));
    assert_eq!(written.len(), 17);
    for path in written {
        let name = path.file_name().unwrap();
        let file = fs::read(folder().join(name)).unwrap();
        let sheet = cockledrift::read_vec(&file).expect("a file that reads");
        let bytes = cockledrift::write_vec(&sheet).expect("a sheet that was read");
        assert!(bytes == fs::read(&path).unwrap(), "{} is written otherwise", path.display());
        agrees(&path, &sheet, 8);
    }
}

/// What v7 cannot carry: the first such record, or 0 for an extended elevation.
fn not_for_v7(name: &str) -> Option<usize> {
    match name {
        "anon.v8.3d" => Some(9),
        "extended.v8.3d" => Some(0),
        "passage.v8.3d" => Some(2),
        _ => None,
    }
}

/// The same of the v7 files that we write, for each file that v7 can carry.
#[test]
fn written_v7_files_agree_with_dump3d() {
    let mut seen = 0;
    for source in files(&folder()) {
        let name = source.file_name().unwrap();
        let sheet = cockledrift::read_vec(&fs::read(&source).unwrap()).expect("a file that reads");
        if let Err(difference) = compare::write_v7(&sheet) {
            disagree(&format!("writing {} as v7", source.display()), &sheet, &difference);
        }
        let bytes = match (not_for_v7(name.to_str().unwrap()), cockledrift::write_v7_vec(&sheet)) {
            (Some(due), Err(refusal)) => {
                assert_eq!((refusal.number, refusal.place), (23, due), "{}", source.display());
                continue;
            }
            (_, written) => written.expect("a sheet that v7 can carry"),
        };
        let path = folder().join("written_v7").join(name);
        assert!(bytes == fs::read(&path).unwrap(), "{} is written otherwise", path.display());
        agrees(&path, &v7_twin(&sheet), 7);
        seen += 1;
    }
    assert_eq!(files(&folder().join("written_v7")).len(), seen);
}

/// dump3d's stored text says the records of this sheet; where dump3d is installed, it is
/// asked again.
fn agrees(path: &Path, sheet: &[u8], version: u8) {
    let text = fs::read_to_string(path.with_extension("dump")).unwrap();
    let (said, ours) = (dump::said(&text), dump::told(sheet, version));
    assert_eq!(said.head, ours.head, "{}", path.display());
    assert_eq!(said.lines, ours.lines, "{}", path.display());
    if let Ok(now) = Command::new("dump3d").arg("-d").arg(path).output() {
        assert_eq!(String::from_utf8(now.stdout).unwrap(), text, "{}", path.display());
    }
}

/// What document 01 answers for the files in `departures` that it refuses;
/// the others read.
fn departure(name: &str) -> Option<(u8, usize)> {
    match name {
        "anon.v3.3d" => Some((4, 291)),
        "anon.v4.3d" | "anon.v5.3d" | "anon.v6.3d" => Some((4, 296)),
        "anon.v7.3d" => Some((4, 294)),
        "loops.v3.3d" => Some((4, 89)),
        "loops.v4.3d" | "loops.v5.3d" => Some((4, 94)),
        "early.v4.3d" | "early.v5.3d" | "early.v6.3d" => Some((9, 77)),
        "longname.v7.3d" => Some((7, 4185)),
        "longname.v8.3d" => Some((7, 4175)),
        _ => None,
    }
}

#[test]
fn departures_answer_as_described() {
    let files = files(&folder().join("departures"));
    assert_eq!(files.len(), 23);
    for path in files {
        let name = path.file_name().unwrap().to_str().unwrap();
        let (_, read) = read(&path);
        assert_eq!(read.err(), departure(name), "{name}");
    }
}

/// Every real file cut at every place, a long one at several hundred places.
#[test]
fn real_files_cut_read_alike() {
    let mut paths = files(&folder());
    paths.extend(files(&folder().join("departures")));
    for path in paths {
        let file = fs::read(&path).unwrap();
        let step = 1 + file.len() / 800;
        for end in (0..file.len()).step_by(step) {
            if let Err(difference) = compare::read(&file[..end]) {
                disagree(&format!("{} cut", path.display()), &file[..end], &difference);
            }
        }
    }
}

/// Real files compared by their time lines, each with each.
#[test]
fn real_time_lines() {
    let mut paths = files(&folder());
    paths.extend(files(&folder().join("departures")));
    let files: Vec<_> = paths.iter().map(|path| fs::read(path).unwrap()).collect();
    for one in &files {
        for other in &files {
            if let Err(difference) = compare::later(one, other) {
                disagree(&format!("a comparison with {}", hex(other)), one, &difference);
            }
        }
    }
}

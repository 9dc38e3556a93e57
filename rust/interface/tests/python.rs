//! The Python module answers as the crate for Rust does: records, bytes, and
//! the words of refusals.

use cockledrift::{
    Entrances, Found, Later, Reader, Record, Refusal, Sheet, Step, Summary, RECORD_LIMIT,
};
use generate::{edits, files, sheets, Rng, SheetKind};
use interface::calls::origin;
use interface::tools::{folder, make, printed, root};
use interface::wanted::seed;
use std::fmt::Display;
use std::io::Write;
use std::ops::Range;
use std::process::{Command, Stdio};
use std::thread;

/// A call: its letter, two inputs, and the numbers of an edit.
struct Call {
    letter: u8,
    a: Vec<u8>,
    b: Vec<u8>,
    first: usize,
    count: usize,
}

impl Call {
    fn new(letter: u8, a: &[u8]) -> Call {
        Call { letter, a: a.to_vec(), b: Vec::new(), first: 0, count: 0 }
    }

    fn bytes(&self) -> Vec<u8> {
        let numbers = [self.a.len(), self.b.len(), self.first, self.count];
        let numbers = numbers.map(|number| u32::try_from(number).expect("a small number"));
        let numbers: Vec<u8> = numbers.into_iter().flat_map(u32::to_le_bytes).collect();
        [&[self.letter][..], &numbers, &self.a, &self.b].concat()
    }

    /// The line that the crate's answer makes.
    fn answer(&self) -> String {
        let Call { letter, a, b, first, count } = self;
        match letter {
            b'r' => said(Sheet::read(a).map(|sheet| hex(sheet.bytes()))),
            b'v' => said(cockledrift::salvage_vec(a).map(|mut sheet| {
                let saved = cockledrift::salvage(a, &mut sheet).expect("room enough");
                let number = saved.refusal.map_or(0, |refusal| refusal.number);
                format!("{number} {} {} {}", saved.place, saved.left, hex(&sheet))
            })),
            b'i' => said(cockledrift::read_strict_vec(a, *first as u64).map(|sheet| hex(&sheet))),
            b't' => said(Sheet::of(a.clone()).map(|sheet| hex(&laid(sheet.records())))),
            b'w' => said(cockledrift::write_vec(a).map(|file| hex(&file))),
            b'7' => said(cockledrift::write_v7_vec(a).map(|file| hex(&file))),
            b'c' => said(Sheet::read(a).and_then(|sheet| sheet.write()).map(|file| hex(&file))),
            b'e' => said(cockledrift::edit_vec(a, *first, *count, b).map(|file| hex(&file))),
            b'l' => said(cockledrift::compare(a, b).map(|later| match later {
                Later::Same => "0 ".to_string(),
                Later::First(line) => format!("1 {}", hex(line)),
                Later::Second(line) => format!("2 {}", hex(line)),
            })),
            b'x' => said(cockledrift::reach(a, b).map(|reach| {
                let (legs, bounds) =
                    (reach.legs.to_string(), [reach.least, reach.greatest].concat());
                bounds.iter().fold(legs, |told, bound| format!("{told} {bound}"))
            })),
            b'g' => said(cockledrift::viewer_legs_vec(a, origin(b)).map(|numbers| {
                hex(&numbers.into_iter().flat_map(f32::to_le_bytes).collect::<Vec<_>>())
            })),
            b'y' => said(summary(a).and_then(|summary| told(&summary, *first..*count))),
            b'u' => said(summary(a).and_then(|mut summary| {
                summary.update(*first, *count, b)?;
                told(&summary, 0..summary.records())
            })),
            b's' => said(steps(a, |reader, out| reader.step(out))),
            b'n' => {
                said(steps(a, |reader, out| Ok(reader.next(out)?.map_or(Step::End, Step::Record))))
            }
            b'p' => said(interface::list::list(a).map(|lines| hex(lines.trim_end().as_bytes()))),
            b'd' | b'D' => format!("done {}", hex(&cockledrift::sha256(a))),
            b'm' => format!("done {}", Refusal { number: *first as u8, place: 0 }.reason()),
            _ => panic!("no such call"),
        }
    }
}

fn summary(sheet: &[u8]) -> Result<Summary, Refusal> {
    Summary::of(&Sheet::of(sheet.to_vec())?)
}

/// The words of a summary, and what a stretch holds.
fn told(summary: &Summary, range: Range<usize>) -> Result<String, Refusal> {
    let words: Vec<u8> = summary.words().iter().flat_map(|word| word.to_le_bytes()).collect();
    let Entrances { count, next } = summary.entrances(range)?;
    let next = next.map_or("-".to_string(), |next| next.to_string());
    Ok(format!("{} {} {count} {next}", summary.records(), hex(&words)))
}

fn said(answer: Result<String, impl Display>) -> String {
    match answer {
        Ok(words) => format!("done {words}"),
        Err(refusal) => refusal.to_string(),
    }
}

fn hex(bytes: &[u8]) -> String {
    bytes.iter().map(|byte| format!("{byte:02x}")).collect()
}

fn laid<'s>(records: impl Iterator<Item = Record<'s>>) -> Vec<u8> {
    let mut bytes = Vec::new();
    records.for_each(|record| record.lay(&mut bytes));
    bytes
}

type Stepper = fn(&mut Reader, &mut [u8]) -> Result<Step, Refusal>;

fn steps(file: &[u8], step: Stepper) -> Result<String, Refusal> {
    let (mut reader, opened) = Reader::open(file);
    opened?;
    let (mut words, mut out) = (Vec::new(), [0; RECORD_LIMIT]);
    loop {
        match step(&mut reader, &mut out)? {
            Step::Record(found @ Found { kept, .. }) => {
                let record = laid([found.record(&out)].into_iter());
                assert_eq!(record, out[..found.bytes]);
                words.push(format!("{}:{kept}", hex(&record)));
            }
            Step::Nothing => words.push("-".to_string()),
            Step::End => return Ok(words.join(" ")),
        }
    }
}

/// Has both make the calls, and answers how many were done.
fn all_alike(name: &str, calls: &[Call]) -> usize {
    let folder = folder(env!("CARGO_TARGET_TMPDIR"), name);
    printed(&mut make(&folder));
    let mut python = Command::new("python3");
    python.env("COCKLEDRIFT_LIBRARY", folder.join("libcockledrift.so"));
    let path = format!("{0}/python:{0}/examples", root().display());
    python.env("PYTHONPATH", path).env("PYTHONDONTWRITEBYTECODE", "1");
    python.arg(root().join("rust/interface/python/calls.py"));
    let mut child =
        python.stdin(Stdio::piped()).stdout(Stdio::piped()).spawn().expect("python3 runs");
    let mut to = child.stdin.take().expect("its standard input");
    let output = thread::scope(|scope| {
        scope.spawn(move || {
            for call in calls {
                to.write_all(&call.bytes()).expect("Python takes the calls");
            }
        });
        child.wait_with_output().expect("Python ends")
    });
    assert!(output.status.success(), "{}", output.status);
    let lines = String::from_utf8(output.stdout).expect("text");
    assert_eq!(lines.lines().count(), calls.len());
    for (line, call) in lines.lines().zip(calls) {
        assert_eq!(line, call.answer(), "{} of {}", call.letter as char, hex(&call.a));
    }
    lines.lines().filter(|line| line.starts_with("done")).count()
}

/// Files, good and damaged, and every call on them.
#[test]
fn files_are_answered_alike() {
    let files: Vec<_> = (0..40).flat_map(|round| files::round(seed(), round)).collect();
    let mut calls = Vec::new();
    for (place, (_, file)) in files.iter().enumerate().step_by(2) {
        calls.push(Call::new(b'v', file));
        calls.push(Call { first: place, ..Call::new(b'i', file) });
        calls.extend(b"rpcsn".map(|letter| Call::new(letter, file)));
        calls.push(Call::new(b'd', file));
        calls.push(Call { first: file.len() / 3, ..Call::new(b'D', file) });
        calls.push(Call { b: files[place / 2].1.clone(), ..Call::new(b'l', file) });
    }
    let done = all_alike("python-files", &calls);
    assert!(done > calls.len() / 5 && done < calls.len(), "{done} of {}", calls.len());
}

/// Sheets, their records taken apart and laid again, and edits.
#[test]
fn sheets_and_edits_are_answered_alike() {
    let mut calls = Vec::new();
    let mut rng = Rng::new(seed(), 5);
    for (kind, sheet) in (0..20).flat_map(|round| sheets::round(seed(), round)) {
        calls.extend(
            [&b""[..], b"a"].map(|name| Call { b: name.to_vec(), ..Call::new(b'x', &sheet) }),
        );
        calls.extend([[0; 3], [-700, 9, i32::MIN]].map(|origin: [i32; 3]| {
            let b = origin.into_iter().flat_map(i32::to_le_bytes).collect();
            Call { b, ..Call::new(b'g', &sheet) }
        }));
        calls.extend(b"tw7".map(|letter| Call::new(letter, &sheet)));
        calls.extend([(0, 0), (0, 1), (1, 3), (2, 1)].map(|(first, count)| Call {
            first,
            count,
            ..Call::new(b'y', &sheet)
        }));
        let Some(file) = cockledrift::write_vec(&sheet).ok().filter(|_| kind == SheetKind::Good)
        else {
            continue;
        };
        let records = Sheet::of(sheet.clone()).expect("a good sheet").records().count();
        for (_, edits::Edit { first, count, new }) in edits::round(&mut rng, records) {
            if first.max(count) <= u32::MAX as usize {
                calls.push(Call { b: new.clone(), first, count, ..Call::new(b'u', &sheet) });
                calls.push(Call { b: new, first, count, ..Call::new(b'e', &file) });
            }
        }
    }
    let done = all_alike("python-sheets", &calls);
    assert!(done > calls.len() / 5 && done < calls.len(), "{done} of {}", calls.len());
}

#[test]
fn every_number_is_said_alike() {
    let calls: Vec<_> = (0..=255).map(|first| Call { first, ..Call::new(b'm', b"") }).collect();
    assert_eq!(all_alike("python-words", &calls), 256);
}

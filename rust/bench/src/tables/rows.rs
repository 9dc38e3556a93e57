//! Every call that walks a file or a sheet: one row each. To add one, write the proved
//! call and another's as a `Call` (in a module below, or beside), and put its `Row` next
//! to those over the same made file: a file is made once for rows that follow each other.
//! Every table then has it.

use super::made::{Case, Made};
use compare::proved;
use second::{Answer, Reach, Salvaged, Summary, Viewed};

/// Memory that a call is lent: what it does not use is empty.
#[derive(Clone, Default, PartialEq)]
pub struct Lent {
    pub sheet: Vec<u8>,
    pub file: Vec<u8>,
    pub room: Vec<u8>,
    pub numbers: Vec<f32>,
    pub words: Vec<u64>,
    /// What only another's call uses: not counted.
    pub spare: Vec<u8>,
}

impl Lent {
    pub fn sheet(bytes: usize) -> Lent {
        Lent { sheet: vec![0; bytes], ..Lent::default() }
    }

    pub fn file(bytes: usize) -> Lent {
        Lent { file: vec![0; bytes], ..Lent::default() }
    }

    /// A pattern, so that all pages have been touched.
    pub fn fill(&mut self) {
        for bytes in [&mut self.sheet, &mut self.file, &mut self.room, &mut self.spare] {
            bytes.fill(0xa5);
        }
        self.numbers.fill(1.5);
        self.words.fill(0xa5a5_a5a5_a5a5_a5a5);
    }

    pub fn bytes(&self) -> usize {
        let numbers = 4 * self.numbers.len() + 8 * self.words.len();
        self.sheet.len() + self.file.len() + self.room.len() + numbers
    }
}

/// What a call answers, in numbers.
pub type Told = [u64; 4];

pub type Call = fn(&Case, &mut Lent) -> Told;

/// Whose call the proved one is held beside.
pub struct Other {
    pub name: &'static str,
    pub call: Call,
    /// Whether it answers and leaves the same: not where it is another call.
    pub same: bool,
}

pub enum Given {
    File,
    Sheet,
}

pub struct Row {
    pub name: &'static str,
    pub made: Made,
    pub given: Given,
    pub lent: fn(&Case) -> Lent,
    pub proved: Call,
    /// The first is the one that the proved call is held beside before all.
    pub others: Vec<Other>,
}

impl Row {
    /// The proved call, and the others.
    pub fn calls(&self) -> Vec<Call> {
        [self.proved].into_iter().chain(self.others.iter().map(|other| other.call)).collect()
    }
}

/// `rust/plain`, the best ordinary Rust that we can write.
fn plain(call: Call) -> Other {
    Other { name: "`plain`", call, same: true }
}

/// `rust/second`, the independent implementation.
fn second(call: Call) -> Other {
    Other { name: "`second`", call, same: true }
}

/// The proved reader over the same file.
fn our_reading() -> Other {
    Other { name: "our reading", call: reads::proved, same: true }
}

pub fn rows() -> Vec<Row> {
    let mut rows = vec![reading(Made::Legs(8)), salvaging(), stepping(Made::Legs(8)), nexts()];
    rows.push(writing(Made::Legs(8)));
    rows.extend(reaches::rows(Made::Legs(8)));
    rows.extend([viewing(Made::Legs(8)), hashing()]);
    rows.push(reading(Made::Legs(3)));
    rows.extend([reading(Made::Legs(7)), stepping(Made::Legs(7)), converting(), writing_v7()]);
    rows.push(editing());
    rows.extend([reading(Made::Turn), stepping(Made::Turn), writing(Made::Turn)]);
    rows.extend(reaches::rows(Made::Turn));
    rows.push(viewing(Made::Turn));
    rows.extend([reading(Made::Cave(8)), strict_reading(), writing(Made::Cave(8)), summing()]);
    rows.push(reading(Made::Cave(7)));
    rows
}

fn reading(made: Made) -> Row {
    Row {
        name: "read",
        made,
        given: Given::File,
        lent: |case| Lent::sheet(case.sheet.len()),
        proved: reads::proved,
        others: vec![plain(reads::plain), second(reads::second)],
    }
}

/// Of a whole file, which is reading and a report.
fn salvaging() -> Row {
    Row {
        name: "salvage",
        proved: |case, lent| saved(proved::salvage(&case.file, &mut lent.sheet)),
        others: vec![
            second(|case, lent| saved(second::salvage(&case.file, &mut lent.sheet))),
            plain(reads::plain),
        ],
        ..reading(Made::Legs(8))
    }
}

/// Of the made cave, whose stations have a name each and stand before their sections.
fn strict_reading() -> Row {
    Row {
        name: "read strictly",
        lent: |case| Lent {
            room: vec![0; cockledrift::names_room(&case.file)],
            ..Lent::sheet(case.sheet.len())
        },
        proved: |case, Lent { sheet, room, .. }| {
            told(proved::read_strict(&case.file, sheet, room, 0x5eed_0f17_2a83_c10d))
        },
        others: vec![
            second(|case, Lent { sheet, room, .. }| {
                told(second::read_strict(&case.file, sheet, room))
            }),
            Other { same: false, ..our_reading() },
        ],
        ..reading(Made::Cave(8))
    }
}

fn stepping(made: Made) -> Row {
    Row {
        name: "steps to the end",
        proved: steps::proved,
        others: vec![second(steps::second), our_reading()],
        ..reading(made)
    }
}

fn nexts() -> Row {
    Row { name: "records to the end", proved: steps::nexts, ..stepping(Made::Legs(8)) }
}

fn writing(made: Made) -> Row {
    Row {
        name: "write v8",
        made,
        given: Given::Sheet,
        lent: |case| Lent::file(needed(second::write(&case.sheet, &mut []))),
        proved: |case, lent| told(proved::write(&case.sheet, &mut lent.file)),
        others: vec![second(|case, lent| told(second::write(&case.sheet, &mut lent.file)))],
    }
}

fn writing_v7() -> Row {
    Row {
        name: "write v7",
        made: Made::Legs(7),
        given: Given::Sheet,
        lent: |case| Lent::file(needed(second::write_v7(&case.sheet, &mut []))),
        proved: |case, lent| told(proved::write_v7(&case.sheet, &mut lent.file)),
        others: vec![second(|case, lent| told(second::write_v7(&case.sheet, &mut lent.file)))],
    }
}

/// v7 to v8.
fn converting() -> Row {
    Row {
        name: "convert",
        made: Made::Legs(7),
        given: Given::File,
        lent: |case| Lent {
            sheet: vec![0; case.sheet.len()],
            ..Lent::file(needed(second::write(&case.sheet, &mut [])))
        },
        proved: |case, Lent { sheet, file, .. }| told(proved::convert(&case.file, sheet, file)),
        others: vec![second(|case, Lent { sheet, file, .. }| {
            told(second::convert(&case.file, sheet, file))
        })],
    }
}

/// Ten records in the middle make way for a station.
fn editing() -> Row {
    let reading = Other {
        call: |case, lent| told(proved::read(&case.file, &mut lent.spare)),
        same: false,
        ..our_reading()
    };
    Row {
        name: "edit of ten records",
        made: Made::House,
        given: Given::File,
        lent: |case| Lent { spare: vec![0; case.sheet.len()], ..Lent::file(case.file.len() + 100) },
        proved: |case, lent| edits::by(proved::edit, case, lent),
        others: vec![second(|case, lent| edits::by(second::edit, case, lent)), reading],
    }
}

/// The legs for the viewer, less an origin.
fn viewing(made: Made) -> Row {
    const ORIGIN: [i32; 3] = [100, -200, 300];
    Row {
        name: "viewer legs",
        made,
        given: Given::Sheet,
        lent: |case| {
            let Viewed::Refused { number: 11, place } =
                second::viewer_legs(&case.sheet, ORIGIN, &mut [])
            else {
                panic!("no legs")
            };
            Lent { numbers: vec![0.0; place], ..Lent::default() }
        },
        proved: |case, lent| viewed(proved::viewer_legs(&case.sheet, ORIGIN, &mut lent.numbers)),
        others: vec![second(|case, lent| {
            viewed(second::viewer_legs(&case.sheet, ORIGIN, &mut lent.numbers))
        })],
    }
}

fn viewed(viewed: Viewed) -> Told {
    match viewed {
        Viewed::Done { legs } => [0, legs as u64, 0, 0],
        Viewed::Refused { number, place } => [u64::from(number), place as u64, 0, 0],
    }
}

/// The summary of the made cave's entrances.
fn summing() -> Row {
    Row {
        name: "summary",
        made: Made::Cave(8),
        given: Given::Sheet,
        lent: |case| Lent {
            words: vec![0; cockledrift::summary_words(case.records)],
            ..Lent::default()
        },
        proved: |case, lent| summed(proved::summarize(&case.sheet, &mut lent.words)),
        others: vec![second(|case, lent| summed(second::summarize(&case.sheet, &mut lent.words)))],
    }
}

fn summed(summary: Summary) -> Told {
    match summary {
        Summary::Takes { words } => [0, words as u64, 0, 0],
        Summary::Refused { number, place } => [u64::from(number), place as u64, 0, 0],
    }
}

fn hashing() -> Row {
    Row {
        name: "SHA-256",
        made: Made::Legs(8),
        given: Given::File,
        lent: |_| Lent { room: vec![0; 32], ..Lent::default() },
        proved: |case, lent| hashed(cockledrift::sha256(&case.file), lent),
        others: vec![plain(|case, lent| hashed(plain::sha256(&case.file), lent))],
    }
}

fn hashed(digest: [u8; 32], lent: &mut Lent) -> Told {
    lent.room.copy_from_slice(&digest);
    [0; 4]
}

mod reads {
    use super::{told, Case, Lent, Told};
    use ::plain::Answer;

    pub fn proved(case: &Case, lent: &mut Lent) -> Told {
        told(compare::proved::read(&case.file, &mut lent.sheet))
    }

    pub fn second(case: &Case, lent: &mut Lent) -> Told {
        told(::second::read(&case.file, &mut lent.sheet))
    }

    pub fn plain(case: &Case, lent: &mut Lent) -> Told {
        match ::plain::read(&case.file, &mut lent.sheet) {
            Answer::Done { bytes, records, version } => {
                [0, bytes as u64, records as u64, u64::from(version)]
            }
            Answer::Refused { number, place } => [u64::from(number), place as u64, 0, 0],
        }
    }
}

mod edits {
    use super::{told, Answer, Case, Lent, Told};

    /// A station `a` at the origin, with its length bytes.
    const STATION: [u8; 17] = [0, 15, 2, 0, 0, 0, 0, 0, 0, 0, 0, 0, 0, 0, 0, 0, b'a'];

    type Editor = fn(&[u8], usize, usize, &[u8], &mut [u8]) -> Answer;

    pub fn by(editor: Editor, case: &Case, lent: &mut Lent) -> Told {
        told(editor(&case.file, case.records / 2, 10, &STATION, &mut lent.file))
    }
}

/// Steps to the end, each record behind the last in the sheet.
mod steps {
    use super::{told, Case, Lent, Told};
    use ::second::{Answer, Opened, Step, Stepper};
    use compare::proved::Reader;

    pub fn proved(case: &Case, lent: &mut Lent) -> Told {
        let (mut reader, opened) = Reader::open(&case.file);
        gathered(case, lent, opened, |out| reader.step(out))
    }

    pub fn nexts(case: &Case, lent: &mut Lent) -> Told {
        let (mut reader, opened) = Reader::open(&case.file);
        gathered(case, lent, opened, |out| reader.next(out))
    }

    pub fn second(case: &Case, lent: &mut Lent) -> Told {
        let (mut stepper, opened) = Stepper::open(&case.file);
        gathered(case, lent, opened, |out| stepper.step(out))
    }

    fn gathered(
        case: &Case,
        lent: &mut Lent,
        opened: Opened,
        mut step: impl FnMut(&mut [u8]) -> Step,
    ) -> Told {
        let Opened::At { version, .. } = opened else { panic!("{opened:?}") };
        let (mut bytes, mut records) = (front(case, lent), 0);
        loop {
            match step(&mut lent.sheet[bytes..]) {
                Step::Record { bytes: size, .. } => {
                    bytes += size;
                    records += 1;
                }
                Step::Nothing => {}
                Step::End => return told(Answer::Done { bytes, records, version }),
                refused => panic!("{refused:?}"),
            }
        }
    }

    /// The sheet's version byte and header, which no step answers: from the case's sheet.
    fn front(case: &Case, lent: &mut Lent) -> usize {
        let size = 3 + usize::from(u16::from_be_bytes([case.sheet[1], case.sheet[2]]));
        lent.sheet[..size].copy_from_slice(&case.sheet[..size]);
        size
    }
}

/// Of all legs, of a survey that all legs of the made files are in, and of one that a leg in
/// 28 is in. The empty name is a part of another.
mod reaches {
    use super::{second, Case, Given, Lent, Made, Reach, Row, Told};
    use compare::proved;

    const MOST: &[u8] = b"cave.series";
    const FEW: &[u8] = b"cave.series.passage.a";

    pub fn rows(made: Made) -> [Row; 3] {
        let row = |name, proved, others| Row {
            name,
            made,
            given: Given::Sheet,
            lent: |_| Lent::default(),
            proved,
            others,
        };
        [
            row(
                "reach of all",
                |case, _| of(proved::reach, case, &FEW[..0]),
                vec![second(|case, _| of(::second::reach, case, &FEW[..0]))],
            ),
            row(
                "reach of a survey",
                |case, _| of(proved::reach, case, MOST),
                vec![second(|case, _| of(::second::reach, case, MOST))],
            ),
            row(
                "reach of few",
                |case, _| of(proved::reach, case, FEW),
                vec![second(|case, _| of(::second::reach, case, FEW))],
            ),
        ]
    }

    type Reaching = fn(&[u8], &[u8]) -> Reach;

    fn of(reach: Reaching, case: &Case, name: &[u8]) -> Told {
        match reach(&case.sheet, name) {
            Reach::Reached { least, greatest, legs } => {
                let number = |place: i32| u64::from(place as u32);
                let bounds = [least, greatest].map(|corner| {
                    corner.iter().fold(0, |sum: u64, place| sum.wrapping_mul(3) + number(*place))
                });
                [0, legs as u64, bounds[0], bounds[1]]
            }
            refused => panic!("{refused:?}"),
        }
    }
}

fn told(answer: Answer) -> Told {
    match answer {
        Answer::Done { bytes, records, version } => {
            [0, bytes as u64, records as u64, u64::from(version)]
        }
        Answer::Refused { number, place } => [u64::from(number), place as u64, 0, 0],
    }
}

/// As reading tells it, and with the report's number for success.
fn saved(saved: Salvaged) -> Told {
    match saved {
        Salvaged::Saved { bytes, records, version, number, .. } => {
            [u64::from(number), bytes as u64, records as u64, u64::from(version)]
        }
        Salvaged::Refused { number, place } => [u64::from(number), place as u64, 0, 0],
    }
}

/// The length that 11 asks for.
fn needed(answer: Answer) -> usize {
    match answer {
        Answer::Refused { number: 11, place } => place,
        other => panic!("no buffer length: {other:?}"),
    }
}

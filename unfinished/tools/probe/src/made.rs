//! Made files, and what a call is given of one.

use generate::coder::{Coder, Form};
use generate::Rng;

/// A made file.
#[derive(Clone, Copy, PartialEq, Eq, Debug)]
pub enum Made {
    /// Legs of this version whose labels differ in the last four bytes.
    Legs(u8),
    /// Stations, cross-sections and legs in turn, labels as in `Legs`, v8.
    Turn,
    /// A cave of many small surveys, in this version.
    Cave(u8),
    /// The v8 legs as the writer writes them.
    House,
}

impl Made {
    pub fn words(self) -> String {
        match self {
            Made::Legs(version) => format!("v{version} legs"),
            Made::Turn => "v8 in turn".into(),
            Made::Cave(version) => format!("v{version} cave"),
            Made::House => "v8 legs, house-written".into(),
        }
    }

    /// A file of at most this many bytes, and of nearly as many.
    pub fn file(self, bytes: usize) -> Vec<u8> {
        match self {
            Made::Legs(version) => legs(version, bytes),
            Made::Turn => in_turn(bytes),
            Made::Cave(version) => cave(version, bytes),
            Made::House => {
                let sheet = sheet_of(&legs(8, bytes));
                let mut file = vec![0; bytes];
                let told = second::write(&sheet, &mut file);
                let second::Answer::Done { bytes, .. } = told else { panic!("{told:?}") };
                file.truncate(bytes);
                file
            }
        }
    }
}

/// What a call is given: a file, or its sheet.
pub struct Case {
    pub file: Vec<u8>,
    pub sheet: Vec<u8>,
    pub records: usize,
}

impl Case {
    pub fn of(file: Vec<u8>) -> Case {
        let sheet = sheet_of(&file);
        let plain::Answer::Done { records, .. } = plain::read(&file, &mut sheet.clone()) else {
            panic!("a file that reads")
        };
        Case { file, sheet, records }
    }
}

fn sheet_of(file: &[u8]) -> Vec<u8> {
    let mut sheet = match plain::read(file, &mut []) {
        plain::Answer::Refused { number: 11, place } => vec![0; place],
        answer => panic!("a made file: {answer:?}"),
    };
    plain::read(file, &mut sheet);
    sheet
}

fn start(version: u8) -> Coder {
    let mut coder = Coder::short(version);
    coder.move_to([0; 3]).leg(0, (0, b"cave.series.passage.0000", Form::Least), [0; 3]);
    coder
}

fn place(rng: &mut Rng) -> [i32; 3] {
    [0; 3].map(|_: i32| rng.next() as i32 >> 8)
}

/// One MOVE and then legs. v3 to v7 drop the last four bytes by a code of its own.
fn legs(version: u8, bytes: usize) -> Vec<u8> {
    let mut rng = Rng::new(10, u64::from(version));
    let mut coder = start(version);
    while coder.bytes.len() < bytes - 22 {
        let end = rng.name(4);
        let to = place(&mut rng);
        if version == 8 {
            coder.leg(0, (4, &end, Form::Least), to);
        } else {
            coder.drop(4).leg(0, (0, &end, Form::Least), to);
        }
    }
    coder.close();
    coder.bytes
}

/// As many stations and cross-sections as legs; every other section has i32 dimensions.
fn in_turn(bytes: usize) -> Vec<u8> {
    let mut rng = Rng::new(10, 80);
    let mut coder = start(8);
    let mut narrow = true;
    while coder.bytes.len() < bytes - 80 {
        let names = [0; 3].map(|_: u8| rng.name(4));
        let at = place(&mut rng);
        coder.station(0, (4, &names[0], Form::Least), at);
        coder.section(0, (4, &names[1], Form::Least), [100, 200, 150, -1], narrow);
        coder.leg(0, (4, &names[2], Form::Least), at);
        narrow = !narrow;
    }
    coder.close();
    coder.bytes
}

/// Many surveys of 3 to 40 legs, as Survex writes them: a survey's date, a MOVE, its legs
/// (a v8 leg of the same survey has no label), a splay now and then, its stations, one in
/// two hundred an entrance; every third survey with cross-sections, every fifth with the
/// error of a traverse.
fn cave(version: u8, bytes: usize) -> Vec<u8> {
    let mut rng = Rng::new(112, u64::from(version));
    let mut coder = Coder::short(version);
    if version == 8 {
        coder.style(0);
    }
    let mut survey = 0;
    while coder.bytes.len() < bytes - 6000 {
        survey += 1;
        one_survey(&mut rng, &mut coder, survey);
    }
    coder.close();
    coder.bytes
}

fn one_survey(rng: &mut Rng, coder: &mut Coder, number: usize) {
    let name =
        format!("system.cave{}.{}{}", number / 97, rng.pick(&["upper", "s", "river"]), number);
    let legs = 3 + rng.below(38);
    let near = |rng: &mut Rng| [0; 3].map(|_: i32| rng.below(4_000_000) as i32 - 2_000_000);
    if coder.version > 6 {
        coder.day(30_000 + rng.below(15_000) as u32);
    }
    coder.move_to(near(rng));
    for leg in 0..legs {
        let flags = if rng.one_in(5) { 4 } else { 0 };
        let to = near(rng);
        if coder.version == 8 && leg > 0 {
            coder.leg_there(flags, to);
        } else {
            labelled(coder, name.as_bytes(), |coder, change| coder.leg(flags, change, to));
        }
    }
    for station in 0..=legs {
        let flags = if rng.one_in(200) { 6 } else { 2 };
        let at = near(rng);
        let name = format!("{name}.{station}");
        labelled(coder, name.as_bytes(), |coder, change| coder.station(flags, change, at));
    }
    if number.is_multiple_of(3) && coder.version > 4 {
        for station in 0..=legs {
            let sides = [0; 4].map(|_: i32| rng.below(600) as i32 - 1);
            let name = format!("{name}.{station}");
            let last = u8::from(station == legs);
            labelled(coder, name.as_bytes(), |coder, change| {
                coder.section(last, change, sides, true)
            });
        }
    }
    if number.is_multiple_of(5) && coder.version > 5 {
        coder.error([legs as i32, 4000, 12, 9, 7]);
    }
}

/// An item with this label, of which the longest common start with the label before is kept.
fn labelled(
    coder: &mut Coder,
    label: &[u8],
    item: impl for<'c> FnOnce(&'c mut Coder, (usize, &[u8], Form)) -> &'c mut Coder,
) {
    let same = coder.label.iter().zip(label).take_while(|(one, other)| one == other).count();
    let mut drop = coder.label.len() - same;
    if coder.version < 8 {
        if same == 0 && drop > 0 {
            coder.empty();
            drop = 0;
        }
        while drop > 0 {
            let part = drop.min(16);
            coder.drop(part);
            drop -= part;
        }
    }
    item(coder, (drop, &label[same..], Form::Least));
}

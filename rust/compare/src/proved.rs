//! The proved library with the second implementation's types: the one place
//! where the two sets of types meet.

use second::{Answer, Entrances, Later, Opened, Reach, Salvaged, Step, Summary, Viewed};

/// An answer of the proved library.
fn answer(answer: cockledrift::Answer) -> Answer {
    match answer {
        Ok(cockledrift::Done { bytes, records, version }) => {
            Answer::Done { bytes, records, version }
        }
        Err(cockledrift::Refusal { number, place }) => Answer::Refused { number, place },
    }
}

pub fn read(file: &[u8], sheet: &mut [u8]) -> Answer {
    answer(cockledrift::read(file, sheet))
}

pub fn salvage(file: &[u8], sheet: &mut [u8]) -> Salvaged {
    match cockledrift::salvage(file, sheet) {
        Ok(cockledrift::Saved { done, refusal, place, left }) => Salvaged::Saved {
            bytes: done.bytes,
            records: done.records,
            version: done.version,
            number: refusal.map_or(0, |refusal| refusal.number),
            place,
            left,
        },
        Err(cockledrift::Refusal { number, place }) => Salvaged::Refused { number, place },
    }
}

pub fn read_strict(file: &[u8], sheet: &mut [u8], names: &mut [u8], seed: u64) -> Answer {
    answer(cockledrift::read_strict(file, sheet, names, seed))
}

pub fn write(sheet: &[u8], out: &mut [u8]) -> Answer {
    answer(cockledrift::write(sheet, out))
}

pub fn write_v7(sheet: &[u8], out: &mut [u8]) -> Answer {
    answer(cockledrift::write_v7(sheet, out))
}

pub fn convert(file: &[u8], sheet: &mut [u8], out: &mut [u8]) -> Answer {
    answer(cockledrift::convert(file, sheet, out))
}

pub fn edit(file: &[u8], first: usize, count: usize, new: &[u8], out: &mut [u8]) -> Answer {
    answer(cockledrift::edit(file, first, count, new, out))
}

pub fn compare<'a>(first: &'a [u8], second: &'a [u8]) -> (Later, &'a [u8]) {
    match cockledrift::compare(first, second) {
        Ok(cockledrift::Later::First(line)) => (Later::First, line),
        Ok(cockledrift::Later::Second(line)) => (Later::Second, line),
        Ok(cockledrift::Later::Same) => (Later::Same, &[]),
        Err(cockledrift::RefusedFile { file, refusal }) => (refused(file, refusal), &[]),
    }
}

fn refused(file: cockledrift::Which, refusal: cockledrift::Refusal) -> Later {
    let file = match file {
        cockledrift::Which::First => 1,
        cockledrift::Which::Second => 2,
    };
    Later::Refused { file, number: refusal.number, place: refusal.place }
}

pub fn reach(sheet: &[u8], name: &[u8]) -> Reach {
    match cockledrift::reach(sheet, name) {
        Ok(cockledrift::Reach { least, greatest, legs }) => {
            Reach::Reached { least, greatest, legs }
        }
        Err(cockledrift::Refusal { number, place }) => Reach::Refused { number, place },
    }
}

pub fn viewer_legs(sheet: &[u8], origin: [i32; 3], out: &mut [f32]) -> Viewed {
    match cockledrift::viewer_legs(sheet, origin, out) {
        Ok(legs) => Viewed::Done { legs },
        Err(cockledrift::Refusal { number, place }) => Viewed::Refused { number, place },
    }
}

fn summary(taken: Result<usize, cockledrift::Refusal>) -> Summary {
    match taken {
        Ok(words) => Summary::Takes { words },
        Err(cockledrift::Refusal { number, place }) => Summary::Refused { number, place },
    }
}

pub fn summarize(sheet: &[u8], words: &mut [u64]) -> Summary {
    summary(cockledrift::summarize(sheet, words))
}

/// The record count is a u32 there: one that is not is none that a file has.
pub fn entrances(words: &[u64], records: usize, from: usize, to: usize) -> Entrances {
    let records = u32::try_from(records).expect("a record count of a file");
    match cockledrift::entrances(words, records, from..to) {
        Ok(cockledrift::Entrances { count, next }) => Entrances::Counted { count, next },
        Err(cockledrift::Refusal { number, place }) => Entrances::Refused { number, place },
    }
}

pub fn update_summary(
    words: &mut [u64],
    records: usize,
    first: usize,
    count: usize,
    new: &[u8],
) -> Summary {
    let records = u32::try_from(records).expect("a record count of a file");
    summary(cockledrift::update_summary(words, records, first, count, new))
}

/// The proved step reader.
#[derive(Clone)]
pub struct Reader<'f>(cockledrift::Reader<'f>);

impl<'f> Reader<'f> {
    pub fn open(file: &'f [u8]) -> (Reader<'f>, Opened) {
        let (reader, opened) = cockledrift::Reader::open(file);
        let opened = match opened {
            Ok(cockledrift::Opened { version, place }) => Opened::At { version, place },
            Err(cockledrift::Refusal { number, place }) => Opened::Refused { number, place },
        };
        (Reader(reader), opened)
    }

    pub fn with(file: &'f [u8], stand: [u64; 14], label: [u8; 4096]) -> Reader<'f> {
        Reader(cockledrift::Reader::with(file, stand, label))
    }

    pub fn stand(&self) -> [u64; 14] {
        *self.0.stand().0
    }

    #[inline]
    pub fn step(&mut self, out: &mut [u8]) -> Step {
        match self.0.step(out) {
            Ok(cockledrift::Step::Record(cockledrift::Found { bytes, kept })) => {
                Step::Record { bytes, kept }
            }
            Ok(cockledrift::Step::Nothing) => Step::Nothing,
            Ok(cockledrift::Step::End) => Step::End,
            Err(cockledrift::Refusal { number, place }) => Step::Refused { number, place },
        }
    }

    #[inline]
    pub fn next(&mut self, out: &mut [u8]) -> Step {
        match self.0.next(out) {
            Ok(Some(cockledrift::Found { bytes, kept })) => Step::Record { bytes, kept },
            Ok(None) => Step::End,
            Err(cockledrift::Refusal { number, place }) => Step::Refused { number, place },
        }
    }
}

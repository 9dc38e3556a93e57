//! Files and sheets for the tests, and calls that watch every lent byte.
#![allow(dead_code)]

use second::*;

pub mod made;

pub const FILLER: u8 = 0xa5;

/// A file: header with this title and time line, then the items. In v8 the
/// byte is 00.
pub fn file(version: u8, title: &[u8], time: &[u8], items: &[u8]) -> Vec<u8> {
    let mut file = b"Survex 3D Image File\nv".to_vec();
    file.push(b'0' + version);
    file.push(b'\n');
    file.extend([title, b"\n", time, b"\n"].concat());
    if version == 8 {
        file.push(0);
    }
    file.extend(items);
    file
}

/// A v8 file with the header of case 1; its items begin at 30.
pub fn v8(items: &[u8]) -> Vec<u8> {
    file(8, b"A", b"@0", items)
}

/// An older file with the header of case 3; its items begin at 28.
pub fn old(version: u8, items: &[u8]) -> Vec<u8> {
    file(version, b"A", b"T", items)
}

pub fn refused(number: u8, place: usize) -> Answer {
    Answer::Refused { number, place }
}

pub fn framed(body: &[u8]) -> Vec<u8> {
    [&(body.len() as u16).to_be_bytes()[..], body].concat()
}

fn be(numbers: &[i32]) -> Vec<u8> {
    numbers.iter().flat_map(|number| number.to_be_bytes()).collect()
}

pub fn le(numbers: &[i32]) -> Vec<u8> {
    numbers.iter().flat_map(|number| number.to_le_bytes()).collect()
}

#[derive(Clone, Copy, PartialEq, Eq, Debug)]
pub enum Date {
    None,
    Day(u16),
    Range(u16, u16),
}

impl Date {
    /// Kind, day and last day, as leg and section records hold them.
    pub fn bytes(self) -> [u8; 5] {
        let (kind, day, last) = match self {
            Date::None => (0, 0, 0),
            Date::Day(day) => (1, day, 0),
            Date::Range(day, last) => (2, day, last),
        };
        let ([a, b], [c, d]) = (day.to_be_bytes(), last.to_be_bytes());
        [kind, a, b, c, d]
    }
}

#[derive(Clone, PartialEq, Eq, Debug)]
pub enum Rec {
    Leg { flags: u8, style: u8, date: Date, from: [i32; 3], to: [i32; 3], label: Vec<u8> },
    Station { flags: u8, at: [i32; 3], label: Vec<u8> },
    Section { last: u8, date: Date, sides: [i32; 4], label: Vec<u8> },
    Error([i32; 5]),
}

impl Rec {
    pub fn label(&self) -> Option<&[u8]> {
        match self {
            Rec::Leg { label, .. } | Rec::Station { label, .. } | Rec::Section { label, .. } => {
                Some(label)
            }
            Rec::Error(_) => None,
        }
    }

    /// The record in a version 2 sheet, with its length bytes.
    pub fn bytes(&self) -> Vec<u8> {
        match self {
            Rec::Leg { flags, style, date, from, to, label } => {
                let head = [&[1, *flags, *style], &date.bytes()[..]].concat();
                framed(&[&head[..], &be(from), &be(to), label].concat())
            }
            Rec::Station { flags, at, label } => {
                framed(&[&[2, *flags], &be(at)[..], label].concat())
            }
            Rec::Section { last, date, sides, label } => {
                framed(&[&[3, *last], &date.bytes()[..], &be(sides), label].concat())
            }
            Rec::Error(five) => framed(&[&[4], &be(five)[..]].concat()),
        }
    }

    /// The record in a version 1 sheet, where a section has no date.
    pub fn bytes_v1(&self) -> Vec<u8> {
        match self {
            Rec::Section { last, sides, label, .. } => {
                framed(&[&[3, *last], &be(sides)[..], label].concat())
            }
            _ => self.bytes(),
        }
    }
}

pub fn leg(style: u8, date: Date, from: [i32; 3], to: [i32; 3], label: &[u8]) -> Rec {
    Rec::Leg { flags: 0, style, date, from, to, label: label.to_vec() }
}

pub fn station(label: &[u8]) -> Rec {
    Rec::Station { flags: 0, at: [0; 3], label: label.to_vec() }
}

pub fn section(sides: [i32; 4], label: &[u8]) -> Rec {
    Rec::Section { last: 0, date: Date::None, sides, label: label.to_vec() }
}

pub fn dated_section(date: Date, label: &[u8]) -> Rec {
    Rec::Section { last: 0, date, sides: [1, 2, 3, 4], label: label.to_vec() }
}

pub fn joined(records: &[Rec]) -> Vec<u8> {
    records.iter().flat_map(Rec::bytes).collect()
}

pub fn sheet_with(extended: u8, title: &[u8], time: &[u8], records: &[Rec]) -> Vec<u8> {
    let length = (title.len() as u16).to_be_bytes();
    let head = framed(&[&[0, extended], &length[..], title, time].concat());
    [&[2], &head[..], &joined(records)].concat()
}

/// A sheet with the header of case 1.
pub fn sheet(records: &[Rec]) -> Vec<u8> {
    sheet_with(0, b"A", b"@0", records)
}

/// The version 1 sheet of the records, which lose the dates of sections.
pub fn sheet_v1(records: &[Rec]) -> Vec<u8> {
    let mut sheet = sheet(&[]);
    sheet[0] = 1;
    sheet.extend(records.iter().flat_map(Rec::bytes_v1));
    sheet
}

/// The version 2 twin of a good sheet: sections of version 1 get no date.
pub fn twin(sheet: &[u8]) -> Vec<u8> {
    if sheet[0] == 2 {
        return sheet.to_vec();
    }
    let mut twin = vec![2];
    let mut rest = &sheet[1..];
    while !rest.is_empty() {
        let end = 2 + usize::from(u16::from_be_bytes([rest[0], rest[1]]));
        let body = &rest[2..end];
        twin.extend(match body[0] {
            3 => framed(&[&body[..2], &[0; 5], &body[2..]].concat()),
            _ => framed(body),
        });
        rest = &rest[end..];
    }
    twin
}

/// Calls with buffers too small, exact and too large, and watches that
/// refusals leave them untouched and success leaves the rest.
pub fn watched(call: impl Fn(&mut [u8]) -> Answer) -> Result<(Vec<u8>, usize, u8), (u8, usize)> {
    let needed = match call(&mut []) {
        Answer::Refused { number: 11, place } => place,
        Answer::Refused { number, place } => {
            let mut buffer = vec![FILLER; 200];
            assert_eq!(call(&mut buffer), refused(number, place));
            assert!(buffer.iter().all(|&byte| byte == FILLER));
            return Err((number, place));
        }
        done => panic!("no bytes are enough for nothing: {done:?}"),
    };
    let mut buffer = vec![FILLER; needed - 1];
    assert_eq!(call(&mut buffer), refused(11, needed));
    assert!(buffer.iter().all(|&byte| byte == FILLER));
    let mut buffer = vec![FILLER; needed + 9];
    let Answer::Done { bytes, records, version } = call(&mut buffer) else { panic!("refused") };
    assert_eq!(bytes, needed);
    assert!(buffer[bytes..].iter().all(|&byte| byte == FILLER));
    let mut exact = vec![FILLER; needed];
    assert_eq!(call(&mut exact), Answer::Done { bytes, records, version });
    assert_eq!(exact, buffer[..bytes]);
    Ok((exact, records, version))
}

pub fn read_all(file: &[u8]) -> Result<(Vec<u8>, usize, u8), (u8, usize)> {
    let read = watched(|sheet| read(file, sheet));
    assert_eq!(
        stepped(file),
        read.clone().map(|(sheet, records, version)| {
            (
                sheet[3 + usize::from(u16::from_be_bytes([sheet[1], sheet[2]]))..].to_vec(),
                records,
                version,
            )
        })
    );
    read
}

pub fn write_all(sheet: &[u8]) -> Result<Vec<u8>, (u8, usize)> {
    let (file, _, version) = watched(|file| write(sheet, file))?;
    assert_eq!(version, 8);
    Ok(file)
}

pub fn write_v7_all(sheet: &[u8]) -> Result<Vec<u8>, (u8, usize)> {
    let (file, _, version) = watched(|file| write_v7(sheet, file))?;
    assert_eq!(version, 7);
    Ok(file)
}

/// The records after the header as stepping gives them, joined, their count and
/// the version.
pub fn stepped(file: &[u8]) -> Result<(Vec<u8>, usize, u8), (u8, usize)> {
    let (steps, version) = steps(file)?;
    let all = steps.iter().flat_map(|step| step.record.clone()).collect();
    Ok((all, steps.len(), version))
}

/// A record as a step gives it.
pub struct Stepped {
    pub record: Vec<u8>,
    pub kept: usize,
}

/// Steps to the end, watching every step: the records and the version.
pub fn steps(file: &[u8]) -> Result<(Vec<Stepped>, u8), (u8, usize)> {
    let (mut stepper, opened) = open(file);
    let (mut all, mut name) = (Vec::new(), Vec::new());
    loop {
        let mut buffer = vec![FILLER; 4140];
        let step = step_again(&mut stepper, &mut buffer);
        match step {
            Step::Record { bytes, kept } => {
                assert!(buffer[bytes..].iter().all(|&byte| byte == FILLER));
                buffer.truncate(bytes);
                watch_kept(&mut name, &buffer, kept);
                all.push(Stepped { record: buffer, kept });
            }
            Step::Nothing => {}
            Step::End | Step::Refused { .. } => {
                assert_eq!(stepper.step(&mut buffer), step);
                assert_eq!(stepper.step(&mut []), step);
                assert!(buffer.iter().all(|&byte| byte == FILLER));
                return match (step, opened) {
                    (Step::End, Opened::At { version, .. }) => Ok((all, version)),
                    (Step::Refused { number, place }, _) => Err((number, place)),
                    _ => panic!("an end after a refused opening"),
                };
            }
        }
    }
}

/// One step; a record is tried twice with too little room before.
fn step_again(stepper: &mut Stepper, buffer: &mut [u8]) -> Step {
    let small = stepper.step(&mut []);
    let Step::Refused { number: 11, place } = small else { return small };
    assert_eq!(stepper.step(&mut buffer[..place - 1]), small);
    assert!(buffer.iter().all(|&byte| byte == FILLER));
    let step = stepper.step(buffer);
    assert!(matches!(step, Step::Record { bytes, .. } if bytes == place), "{step:?}");
    step
}

/// The number kept is at most the length of both names, which agree on that
/// many bytes. `name` is the name before, and becomes that of the record.
fn watch_kept(name: &mut Vec<u8>, record: &[u8], kept: usize) {
    let Some(label) = label_of(record) else { return assert_eq!(kept, 0) };
    assert!(kept <= name.len() && kept <= label.len(), "{kept} {name:?} {label:?}");
    assert_eq!(name[..kept], label[..kept]);
    *name = label.to_vec();
}

/// The label of a record with its length bytes; an error has none.
fn label_of(record: &[u8]) -> Option<&[u8]> {
    match record[2] {
        1 => Some(&record[34..]),
        2 => Some(&record[16..]),
        3 => Some(&record[25..]),
        _ => None,
    }
}

/// The number kept of each record of a good file. No step is tried twice.
pub fn kept_of(file: &[u8]) -> Vec<usize> {
    let (mut stepper, _) = open(file);
    let mut numbers = Vec::new();
    let mut buffer = [FILLER; 4130];
    loop {
        match stepper.step(&mut buffer) {
            Step::Record { kept, .. } => numbers.push(kept),
            Step::Nothing => {}
            Step::End => return numbers,
            Step::Refused { number, place } => panic!("refused {number} at {place}"),
        }
    }
}

/// A small seeded generator (xorshift).
pub struct Rng(pub u64);

impl Rng {
    pub fn next(&mut self) -> u64 {
        self.0 ^= self.0 << 13;
        self.0 ^= self.0 >> 7;
        self.0 ^= self.0 << 17;
        self.0.wrapping_mul(0x2545_f491_4f6c_dd1d) >> 16
    }

    pub fn below(&mut self, bound: usize) -> usize {
        (self.next() % bound as u64) as usize
    }

    pub fn chance(&mut self, one_in: usize) -> bool {
        self.below(one_in) == 0
    }
}

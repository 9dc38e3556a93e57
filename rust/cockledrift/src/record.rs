//! The records of a sheet as values.

#![forbid(unsafe_code)]

/// A record of a sheet, with its label as that part of the sheet.
#[derive(Clone, Copy, PartialEq, Eq, Hash, Debug)]
pub enum Record<'s> {
    /// A leg between two places.
    Leg(Leg<'s>),
    /// A station.
    Station(Station<'s>),
    /// A cross-section of a passage.
    Section(Section<'s>),
    /// The error of a traverse.
    Traverse(Traverse),
}

/// A leg.
#[derive(Clone, Copy, PartialEq, Eq, Hash, Debug)]
pub struct Leg<'s> {
    /// 0x01 above ground, 0x02 a duplicate, 0x04 a splay.
    pub flags: u8,
    /// 0 normal, 1 diving, 2 cartesian, 3 cylpolar, 4 nosurvey, 5 not said.
    pub style: u8,
    /// When it was surveyed.
    pub date: Date,
    /// Where it starts.
    pub from: Point,
    /// Where it ends.
    pub to: Point,
    /// The survey that it is in.
    pub label: &'s [u8],
}

/// A station.
#[derive(Clone, Copy, PartialEq, Eq, Hash, Debug)]
pub struct Station<'s> {
    /// 0x01 above ground, 0x02 underground, 0x04 entrance, 0x08 exported, 0x10
    /// fixed, 0x20 anonymous, 0x40 on the wall.
    pub flags: u8,
    /// Where it is.
    pub at: Point,
    /// Its full name.
    pub label: &'s [u8],
}

/// A cross-section. A distance of -1 was left out.
#[derive(Clone, Copy, PartialEq, Eq, Hash, Debug)]
pub struct Section<'s> {
    /// Whether it is the last of its passage.
    pub last: bool,
    /// When it was measured.
    pub date: Date,
    /// Left, right, up and down, in centimetres.
    pub sides: [i32; 4],
    /// The full name of its station.
    pub label: &'s [u8],
}

/// The error of a traverse: its legs, its length, and the error, its horizontal
/// and its vertical part, in centimetres.
#[derive(Clone, Copy, PartialEq, Eq, Hash, Debug)]
pub struct Traverse {
    /// The legs of the traverse.
    pub legs: i32,
    /// Its length.
    pub length: i32,
    /// The error.
    pub error: i32,
    /// Its horizontal part.
    pub horizontal: i32,
    /// Its vertical part.
    pub vertical: i32,
}

/// A place, in centimetres.
#[derive(Clone, Copy, PartialEq, Eq, Hash, Debug)]
pub struct Point {
    /// East.
    pub x: i32,
    /// North.
    pub y: i32,
    /// Up.
    pub z: i32,
}

/// Days count from 1 January 1900, which is day 0.
#[derive(Clone, Copy, PartialEq, Eq, Hash, Debug)]
pub enum Date {
    /// No date.
    None,
    /// A day.
    Day(u16),
    /// The first day and the last.
    Range(u16, u16),
}

/// Which layout a section has.
#[derive(Clone, Copy, PartialEq, Eq, Debug)]
pub(crate) enum SheetVersion {
    One,
    Two,
}

/// Where the parts of a record come from: the bytes of a sheet, or the words of a
/// line.
pub(crate) trait Parts<'s> {
    fn byte(&mut self) -> Option<u8>;
    fn numbers<const N: usize>(&mut self) -> Option<[i32; N]>;
    fn date(&mut self) -> Option<Date>;
    fn section_date(&mut self) -> Option<Date> {
        self.date()
    }
    fn label(&mut self) -> Option<&'s [u8]>;
    fn point(&mut self) -> Option<Point> {
        self.numbers().map(|[x, y, z]| Point { x, y, z })
    }
}

/// Where the parts of a record go.
pub(crate) trait Place {
    fn byte(&mut self, byte: u8);
    fn numbers<const N: usize>(&mut self, numbers: [i32; N]);
    fn date(&mut self, date: Date);
    fn label(&mut self, label: &[u8]);
    fn point(&mut self, Point { x, y, z }: Point) {
        self.numbers([x, y, z]);
    }
}

/// The bytes of a record, taken from the front.
struct Front<'s>(&'s [u8], SheetVersion);

impl Front<'_> {
    fn array<const N: usize>(&mut self) -> Option<[u8; N]> {
        let (first, rest) = self.0.split_first_chunk()?;
        self.0 = rest;
        Some(*first)
    }
}

impl<'s> Parts<'s> for Front<'s> {
    fn byte(&mut self) -> Option<u8> {
        self.array::<1>().map(|[byte]| byte)
    }

    fn numbers<const N: usize>(&mut self) -> Option<[i32; N]> {
        let mut numbers = [0; N];
        for number in &mut numbers {
            *number = i32::from_be_bytes(self.array()?);
        }
        Some(numbers)
    }

    fn date(&mut self) -> Option<Date> {
        let [kind, a, b, c, d] = self.array()?;
        let (day, last) = (u16::from_be_bytes([a, b]), u16::from_be_bytes([c, d]));
        match kind {
            0 => Some(Date::None),
            1 => Some(Date::Day(day)),
            2 => Some(Date::Range(day, last)),
            _ => None,
        }
    }

    fn section_date(&mut self) -> Option<Date> {
        if self.1 == SheetVersion::One {
            Some(Date::None)
        } else {
            self.date()
        }
    }

    fn label(&mut self) -> Option<&'s [u8]> {
        Some(self.0)
    }
}

impl Place for Vec<u8> {
    fn byte(&mut self, byte: u8) {
        self.push(byte);
    }

    fn numbers<const N: usize>(&mut self, numbers: [i32; N]) {
        self.extend(numbers.into_iter().flat_map(i32::to_be_bytes));
    }

    fn date(&mut self, date: Date) {
        let (kind, day, last) = match date {
            Date::None => (0, 0, 0),
            Date::Day(day) => (1, day, 0),
            Date::Range(day, last) => (2, day, last),
        };
        let ([a, b], [c, d]) = (u16::to_be_bytes(day), u16::to_be_bytes(last));
        self.extend([kind, a, b, c, d]);
    }

    fn label(&mut self, label: &[u8]) {
        self.extend(label);
    }
}

impl<'s> Record<'s> {
    /// The label: the survey of a leg, the full name of a station or of a
    /// section's station; none of a traverse.
    pub fn label(&self) -> &'s [u8] {
        match *self {
            Record::Leg(Leg { label, .. })
            | Record::Station(Station { label, .. })
            | Record::Section(Section { label, .. }) => label,
            Record::Traverse(_) => &[],
        }
    }

    /// The number of its kind in a sheet.
    pub(crate) fn kind(&self) -> u8 {
        match self {
            Record::Leg(_) => 1,
            Record::Station(_) => 2,
            Record::Section(_) => 3,
            Record::Traverse(_) => 4,
        }
    }

    /// The record in these bytes, its length bytes left out.
    pub(crate) fn of(bytes: &'s [u8], version: SheetVersion) -> Option<Record<'s>> {
        let (&kind, parts) = bytes.split_first()?;
        Record::taken(kind, &mut Front(parts, version))
    }

    /// A record of this kind: its parts, in order.
    pub(crate) fn taken(kind: u8, parts: &mut impl Parts<'s>) -> Option<Record<'s>> {
        match kind {
            1 => Some(Record::Leg(Leg {
                flags: parts.byte()?,
                style: parts.byte()?,
                date: parts.date()?,
                from: parts.point()?,
                to: parts.point()?,
                label: parts.label()?,
            })),
            2 => Some(Record::Station(Station {
                flags: parts.byte()?,
                at: parts.point()?,
                label: parts.label()?,
            })),
            3 => Some(Record::Section(Section {
                last: parts.byte().filter(|last| *last < 2)? == 1,
                date: parts.section_date()?,
                sides: parts.numbers()?,
                label: parts.label()?,
            })),
            4 => parts.numbers().map(|[legs, length, error, horizontal, vertical]| {
                Record::Traverse(Traverse { legs, length, error, horizontal, vertical })
            }),
            _ => None,
        }
    }

    /// Puts its parts there, in order.
    pub(crate) fn put(&self, place: &mut impl Place) {
        match *self {
            Record::Leg(Leg { flags, style, date, from, to, label }) => {
                [flags, style].into_iter().for_each(|byte| place.byte(byte));
                place.date(date);
                [from, to].into_iter().for_each(|point| place.point(point));
                place.label(label);
            }
            Record::Station(Station { flags, at, label }) => {
                place.byte(flags);
                place.point(at);
                place.label(label);
            }
            Record::Section(Section { last, date, sides, label }) => {
                place.byte(last.into());
                place.date(date);
                place.numbers(sides);
                place.label(label);
            }
            Record::Traverse(Traverse { legs, length, error, horizontal, vertical }) => {
                place.numbers([legs, length, error, horizontal, vertical]);
            }
        }
    }

    /// The record's bytes in a sheet of version 2, its length bytes first, put
    /// behind those of `out`: what [`edit`](crate::edit) takes. A record that no
    /// sheet can hold (flags, a style or a label that are too great, a range
    /// whose last day is not later) is refused there, with 12.
    ///
    /// ```
    /// use cockledrift::{Point, Record, Station};
    /// let at = Point { x: 100, y: 0, z: -1 };
    /// let mut new = Vec::new();
    /// Record::Station(Station { flags: 0, at, label: b"a.2" }).lay(&mut new);
    /// assert_eq!(new, b"\0\x11\x02\0\0\0\0\x64\0\0\0\0\xff\xff\xff\xffa.2");
    /// ```
    pub fn lay(&self, out: &mut Vec<u8>) {
        let start = out.len();
        out.extend([0, 0, self.kind()]);
        self.put(out);
        // A longer record has a label over the limit, and is refused at any length.
        let length = u16::try_from(out.len() - start - 2).unwrap_or(u16::MAX);
        out[start..start + 2].copy_from_slice(&length.to_be_bytes());
    }
}

/// The records of a sheet, in order: [`Sheet::records`](crate::Sheet::records).
#[derive(Clone, Debug)]
pub struct Records<'s> {
    rest: &'s [u8],
    version: SheetVersion,
}

impl<'s> Records<'s> {
    /// The records in these bytes of a sheet.
    pub(crate) fn new(rest: &'s [u8], version: SheetVersion) -> Records<'s> {
        Records { rest, version }
    }
}

impl<'s> Iterator for Records<'s> {
    type Item = Record<'s>;

    fn next(&mut self) -> Option<Record<'s>> {
        let (record, rest) = first(self.rest)?;
        self.rest = rest;
        Some(Record::of(record, self.version).expect("a sheet has good records"))
    }
}

impl std::iter::FusedIterator for Records<'_> {}

/// The bytes of the first record, its length bytes left out, and what follows.
pub(crate) fn first(records: &[u8]) -> Option<(&[u8], &[u8])> {
    let (&length, rest) = records.split_first_chunk()?;
    rest.split_at_checked(u16::from_be_bytes(length).into())
}

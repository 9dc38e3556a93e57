//! Records and sheets, as their bytes.

/// A record's bytes after its two length bytes.
pub type Body = Vec<u8>;

/// Kind, first day, last day: as a leg or a section holds them, right or wrong.
#[derive(Clone, Copy, PartialEq, Eq, Debug)]
pub struct Date(pub u8, pub u16, pub u16);

pub const UNDATED: Date = Date(0, 0, 0);

impl Date {
    fn bytes(self) -> [u8; DATE_SIZE] {
        let [day, last] = [self.1, self.2].map(u16::to_be_bytes);
        [self.0, day[0], day[1], last[0], last[1]]
    }
}

/// A date takes so many bytes, and stands here in a section of version 2.
pub const DATE_SIZE: usize = 5;
const DATE_PLACE: usize = 2;

/// The version byte of a sheet whose sections have no date, and of one whose
/// sections have one.
pub const VERSION_1: u8 = 1;
pub const VERSION_2: u8 = 2;

/// A leg's parts.
#[derive(Clone)]
pub struct Leg {
    pub flags: u8,
    pub style: u8,
    pub date: Date,
    pub from: [i32; 3],
    pub to: [i32; 3],
    pub label: Vec<u8>,
}

impl Leg {
    /// A leg of no style said, from and to the origin.
    pub fn plain(label: &[u8]) -> Leg {
        let label = label.to_vec();
        Leg { flags: 0, style: 5, date: UNDATED, from: [0; 3], to: [0; 3], label }
    }

    pub fn body(&self) -> Body {
        let start = [1, self.flags, self.style];
        [&start, &self.date.bytes()[..], &big(&self.from), &big(&self.to), &self.label].concat()
    }
}

pub fn station(flags: u8, at: [i32; 3], label: &[u8]) -> Body {
    [&[2, flags], &big(&at)[..], label].concat()
}

pub fn section(last: u8, date: Date, sides: [i32; 4], label: &[u8]) -> Body {
    [&[3, last], &date.bytes()[..], &big(&sides), label].concat()
}

/// The records as version 1 has them: sections lose their dates.
pub fn without_dates(records: &[Body]) -> Vec<Body> {
    let cut = |body: &Body| match body[..] {
        [3, ..] => [&body[..DATE_PLACE], &body[DATE_PLACE + DATE_SIZE..]].concat(),
        _ => body.clone(),
    };
    records.iter().map(cut).collect()
}

pub fn error(five: [i32; 5]) -> Body {
    [&[4], &big(&five)[..]].concat()
}

pub fn header(extended: u8, title: &[u8], time: &[u8]) -> Body {
    [&[0, extended], &(title.len() as u16).to_be_bytes()[..], title, time].concat()
}

fn big(numbers: &[i32]) -> Vec<u8> {
    numbers.iter().flat_map(|number| number.to_be_bytes()).collect()
}

/// The version byte, then the bodies with their lengths.
pub fn sheet(bodies: &[Body]) -> Vec<u8> {
    sheet_of(VERSION_2, bodies)
}

pub fn sheet_of(version: u8, bodies: &[Body]) -> Vec<u8> {
    let mut sheet = vec![version];
    for body in bodies {
        sheet.extend_from_slice(&(body.len() as u16).to_be_bytes());
        sheet.extend_from_slice(body);
    }
    sheet
}

/// A sheet with the header of case 1.
pub fn with_short_header(records: &[Body]) -> Vec<u8> {
    short_sheet(VERSION_2, records)
}

pub fn short_sheet(version: u8, records: &[Body]) -> Vec<u8> {
    sheet_of(version, &[&[header(0, b"A", b"@0")], records].concat())
}

/// The version 2 sheet of a good sheet's header and records.
pub fn twin(sheet: &[u8]) -> Vec<u8> {
    if sheet[0] == VERSION_2 {
        return sheet.to_vec();
    }
    let mut twin = vec![VERSION_2];
    let mut rest = &sheet[1..];
    while let Some((length, behind)) = rest.split_first_chunk() {
        let (body, behind) = behind.split_at(usize::from(u16::from_be_bytes(*length)));
        let (start, end) = body.split_at(DATE_PLACE.min(body.len()));
        let date = if body[0] == 3 { &UNDATED.bytes()[..] } else { &[] };
        twin.extend(((body.len() + date.len()) as u16).to_be_bytes());
        twin.extend([start, date, end].concat());
        rest = behind;
    }
    twin
}

/// The sheet with each of its records changed, as far as their lengths are good.
fn with_each(sheet: &[u8], change: impl Fn(&mut [u8])) -> Vec<u8> {
    let mut new = sheet.to_vec();
    let mut at = 1;
    while let Some(length) = new.get(at..at + 2) {
        let end = at + 2 + usize::from(u16::from_be_bytes([length[0], length[1]]));
        let Some(body) = new.get_mut(at + 2..end) else { break };
        change(body);
        at = end;
    }
    new
}

/// What reading gives back of a good sheet that was written as v7: its twin, with
/// style normal as not said.
pub fn v7_twin(sheet: &[u8]) -> Vec<u8> {
    with_each(&twin(sheet), |body| match body {
        [1, _, style, ..] if *style == 0 => *style = 5,
        _ => {}
    })
}

/// The sheet without what v7 cannot carry: not extended, styles 1 to 4 as normal or
/// not said, stations with flags up to 1f.
pub fn for_v7(sheet: &[u8]) -> Vec<u8> {
    with_each(sheet, |body| match body {
        [0, extended, ..] if *extended == 1 => *extended = 0,
        [1, _, style, ..] if *style < 5 => *style = 5 * (*style % 2),
        [2, flags, ..] if *flags < 0x80 => *flags &= 0x1f,
        _ => {}
    })
}

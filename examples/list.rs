//! Lists a 3d file, as list.c does: a line for its header, one for each record,
//! and how many there are.

use cockledrift::{Date, Leg, Point, Reader, Record, Refusal, Section, Sheet, Station, Traverse};
use std::fmt::{self, Display, Formatter, Write};
use std::process::ExitCode;
use std::{env, fs};

/// The sheet of a file in lines.
pub fn list(file: &[u8]) -> Result<String, Refusal> {
    let (_, opened) = Reader::open(file);
    let (version, sheet) = (opened?.version, Sheet::read(file)?);
    let header = sheet.header();
    let (title, time, extended) = (Text(header.title), Text(header.time), header.extended as u8);
    let mut lines = format!("version {version} title {title} time {time} extended {extended}\n");
    for record in sheet.records() {
        writeln!(lines, "{}", Line(record)).expect("a string grows");
    }
    Ok(lines + &format!("end {}\n", sheet.records().count()))
}

/// A record as a line.
struct Line<'s>(Record<'s>);

impl Display for Line<'_> {
    fn fmt(&self, to: &mut Formatter) -> fmt::Result {
        match self.0 {
            Record::Leg(Leg { flags, style, date, from, to: end, label }) => {
                let (date, from, end, label) = (Day(date), Place(from), Place(end), Text(label));
                write!(to, "leg {flags} {style} {date} {from} {end} {label}")
            }
            Record::Station(Station { flags, at, label }) => {
                write!(to, "station {flags} {} {}", Place(at), Text(label))
            }
            Record::Section(Section { last, date, sides: [left, right, up, down], label }) => {
                let (last, date, label) = (last as u8, Day(date), Text(label));
                write!(to, "xsect {last} {date} {left} {right} {up} {down} {label}")
            }
            Record::Traverse(Traverse { legs, length, error, horizontal, vertical }) => {
                write!(to, "error {legs} {length} {error} {horizontal} {vertical}")
            }
        }
    }
}

struct Place(Point);

impl Display for Place {
    fn fmt(&self, to: &mut Formatter) -> fmt::Result {
        write!(to, "{} {} {}", self.0.x, self.0.y, self.0.z)
    }
}

struct Day(Date);

impl Display for Day {
    fn fmt(&self, to: &mut Formatter) -> fmt::Result {
        match self.0 {
            Date::None => write!(to, "none"),
            Date::Day(day) => write!(to, "{day}"),
            Date::Range(day, last) => write!(to, "{day}-{last}"),
        }
    }
}

struct Text<'t>(&'t [u8]);

impl Display for Text<'_> {
    fn fmt(&self, to: &mut Formatter) -> fmt::Result {
        match self.0 {
            [] => write!(to, "-"),
            [b'-'] => write!(to, "%2d"),
            text => text.iter().try_for_each(|&byte| match byte {
                33..=126 if byte != b'%' => to.write_char(byte.into()),
                _ => write!(to, "%{byte:02x}"),
            }),
        }
    }
}

fn main() -> ExitCode {
    let Some(name) = env::args_os().nth(1) else {
        eprintln!("list FILE");
        return ExitCode::from(2);
    };
    let listed = fs::read(&name).map(|file| list(&file));
    match listed {
        Ok(Ok(lines)) => print!("{lines}"),
        Ok(Err(refusal)) => {
            println!("{refusal}");
            return ExitCode::from(1);
        }
        Err(error) => {
            eprintln!("{}: {error}", name.display());
            return ExitCode::from(2);
        }
    }
    ExitCode::SUCCESS
}

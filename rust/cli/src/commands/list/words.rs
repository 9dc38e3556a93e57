//! Records in words.

use crate::text::{dated, escaped, metres};
use cockledrift::{Leg, Point, Record, Section, Station, Traverse};

pub const LEG_FLAGS: [&str; 3] = ["above ground", "duplicate", "splay"];
pub const STATION_FLAGS: [&str; 7] =
    ["above ground", "underground", "entrance", "exported", "fixed", "anonymous", "on the wall"];
pub const STYLES: [&str; 6] =
    ["normal", "diving", "cartesian", "cylpolar", "nosurvey", "style not said"];

/// The words of the bits that are set.
pub fn flags(bits: u8, words: &[&'static str]) -> Vec<&'static str> {
    let set = words.iter().enumerate().filter(|(bit, _)| bits >> bit & 1 == 1);
    set.map(|(_, word)| *word).collect()
}

/// `12 leg cave.upper: ..`.
pub fn line(number: usize, record: &Record) -> String {
    format!("{number} {}", of(record))
}

/// A record without its number.
pub fn of(record: &Record) -> String {
    match *record {
        Record::Leg(Leg { flags: bits, style, date, from, to, label }) => {
            let mut words = vec![dated(date), STYLES[usize::from(style)].into()];
            words.extend(flags(bits, &LEG_FLAGS).into_iter().map(String::from));
            let (from, to) = (point(from), point(to));
            format!("leg {}: {from} to {to} m, {}", name(label), words.join(", "))
        }
        Record::Station(Station { flags: bits, at, label }) => {
            let words = flags(bits, &STATION_FLAGS).into_iter().map(|word| format!(", {word}"));
            format!("station {}: {} m{}", name(label), point(at), words.collect::<String>())
        }
        Record::Section(Section { last, date, sides, label }) => {
            let last = if last { ", last in its passage" } else { "" };
            format!("section {}: {}, {}{last}", name(label), distances(sides), dated(date))
        }
        Record::Traverse(traverse) => error(traverse),
    }
}

fn error(Traverse { legs, length, error, horizontal, vertical }: Traverse) -> String {
    let [length, error, horizontal, vertical] = [length, error, horizontal, vertical].map(metres);
    let legs = if legs == 1 { "1 leg".into() } else { format!("{legs} legs") };
    format!("error of {legs}, {length} m: {error} m, horizontal {horizontal}, vertical {vertical}")
}

fn distances(sides: [i32; 4]) -> String {
    let words = ["left", "right", "up", "down"].iter().zip(sides).map(|(word, side)| match side {
        -1 => format!("{word} -"),
        _ => format!("{word} {}", metres(side)),
    });
    words.collect::<Vec<_>>().join(" ") + " m"
}

fn name(label: &[u8]) -> String {
    if label.is_empty() {
        "(no name)".into()
    } else {
        escaped(label)
    }
}

fn point(Point { x, y, z }: Point) -> String {
    format!("({} {} {})", metres(x), metres(y), metres(z))
}

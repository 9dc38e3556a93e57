//! Records as objects, in centimetres.

use super::words::{flags, LEG_FLAGS, STATION_FLAGS, STYLES};
use crate::json::{quoted, Object};
use crate::text::day;
use cockledrift::{Date, Leg, Point, Record, Section, Station, Traverse};

pub fn line(number: usize, record: &Record) -> String {
    let object = Object::new().raw("record", number);
    match *record {
        Record::Leg(Leg { flags: bits, style, date, from, to, label }) => {
            let object = object.text("kind", "leg").bytes("label", label);
            let object = object.raw("flags", words(bits, &LEG_FLAGS));
            let object = dates(object.text("style", STYLES[usize::from(style)]), date);
            object.raw("from", point(from)).raw("to", point(to)).end()
        }
        Record::Station(Station { flags: bits, at, label }) => {
            let object = object.text("kind", "station").bytes("label", label);
            object.raw("flags", words(bits, &STATION_FLAGS)).raw("at", point(at)).end()
        }
        Record::Section(Section { last, date, sides, label }) => {
            let object = dates(object.text("kind", "section").bytes("label", label), date);
            object.raw("sides", format!("{sides:?}")).raw("last", last).end()
        }
        Record::Traverse(Traverse { legs, length, error, horizontal, vertical }) => {
            let object = object.text("kind", "error").raw("legs", legs).raw("length", length);
            object.raw("error", error).raw("horizontal", horizontal).raw("vertical", vertical).end()
        }
    }
}

fn words(bits: u8, all: &[&'static str]) -> String {
    let words: Vec<_> = flags(bits, all).into_iter().map(quoted).collect();
    format!("[{}]", words.join(", "))
}

fn point(Point { x, y, z }: Point) -> String {
    format!("[{x}, {y}, {z}]")
}

fn dates(object: Object, date: Date) -> Object {
    let (first, last) = match date {
        Date::None => (None, None),
        Date::Day(first) => (Some(first), Some(first)),
        Date::Range(first, last) => (Some(first), Some(last)),
    };
    let [first, last] = [first, last].map(|date| date.map(|date| quoted(&day(date))));
    object.maybe("first_date", first).maybe("last_date", last)
}

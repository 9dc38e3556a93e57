//! Records as comma-separated values, in metres.

use super::words::{flags, LEG_FLAGS, STATION_FLAGS, STYLES};
use crate::text::{day, escaped, metres};
use cockledrift::{Date, Leg, Point, Record, Section, Station, Traverse};

pub const NAMES: &str = "record,kind,label,flags,style,first_date,last_date,x,y,z,to_x,to_y,to_z,\
    left,right,up,down,last,legs,length,error,horizontal,vertical";

pub fn line(number: usize, record: &Record) -> String {
    let mut fields = vec![String::new(); 23];
    fields[0] = number.to_string();
    fields[2] = quoted(&escaped(record.label()));
    match *record {
        Record::Leg(Leg { flags: bits, style, date, from, to, .. }) => {
            fields[1] = "leg".into();
            fields[3] = flags(bits, &LEG_FLAGS).join("|");
            fields[4] = STYLES[usize::from(style)].into();
            dates(&mut fields, date);
            fields.splice(7..13, point(from).into_iter().chain(point(to)));
        }
        Record::Station(Station { flags: bits, at, .. }) => {
            fields[1] = "station".into();
            fields[3] = flags(bits, &STATION_FLAGS).join("|");
            fields.splice(7..10, point(at));
        }
        Record::Section(Section { last, date, sides, .. }) => {
            fields[1] = "section".into();
            dates(&mut fields, date);
            fields.splice(13..17, sides.map(side));
            fields[17] = (last as u8).to_string();
        }
        Record::Traverse(Traverse { legs, length, error, horizontal, vertical }) => {
            fields[1] = "error".into();
            fields[18] = legs.to_string();
            fields.splice(19..23, [length, error, horizontal, vertical].map(metres));
        }
    }
    fields.join(",")
}

fn dates(fields: &mut [String], date: Date) {
    let (first, last) = match date {
        Date::None => return,
        Date::Day(first) => (first, first),
        Date::Range(first, last) => (first, last),
    };
    (fields[5], fields[6]) = (day(first), day(last));
}

fn point(Point { x, y, z }: Point) -> [String; 3] {
    [x, y, z].map(metres)
}

/// A distance that was left out is an empty field.
fn side(side: i32) -> String {
    if side == -1 {
        String::new()
    } else {
        metres(side)
    }
}

/// A field in quotes where it has to be.
fn quoted(field: &str) -> String {
    match field.contains([',', '"', ' ']) {
        true => format!("\"{}\"", field.replace('"', "\"\"")),
        false => field.into(),
    }
}

//! What the page knows of a survey, as one JSON object.

use super::base64::base64;
use crate::drawing::scene;
use crate::json::Object;
use crate::text::escaped;
use cockledrift::{Date, Leg, Reach, Record, Sheet};
use std::collections::HashMap;

/// The stations that have a name, and what legs have in common.
#[derive(Default)]
struct Lists {
    /// Legs, flags, style, day or -1, survey: a run for legs one after another that
    /// have these in common.
    runs: Vec<[i32; 5]>,
    surveys: Vec<String>,
    names: Vec<String>,
    /// x, y and z in centimetres.
    places: Vec<i32>,
    flags: Vec<u8>,
}

impl Lists {
    fn of(sheet: &Sheet) -> Lists {
        let (mut lists, mut known) = (Lists::default(), HashMap::new());
        for record in sheet.records() {
            match record {
                Record::Leg(leg) => {
                    let survey = *known.entry(leg.label).or_insert_with(|| {
                        lists.surveys.push(escaped(leg.label));
                        lists.surveys.len() - 1
                    });
                    lists.leg(&leg, survey as i32);
                }
                Record::Station(station) if station.flags & 0x60 == 0 => {
                    lists.names.push(escaped(station.label));
                    lists.places.extend([station.at.x, station.at.y, station.at.z]);
                    lists.flags.push(station.flags);
                }
                _ => {}
            }
        }
        lists
    }

    fn leg(&mut self, leg: &Leg, survey: i32) {
        let day = match leg.date {
            Date::None => -1,
            Date::Day(day) | Date::Range(day, _) => day.into(),
        };
        let own = [leg.flags.into(), leg.style.into(), day, survey];
        match self.runs.last_mut() {
            Some(last) if last[1..] == own => last[0] += 1,
            _ => self.runs.push([1, own[0], own[1], own[2], own[3]]),
        }
    }
}

/// Names, each with how much it has in common with the one before, counted as a page
/// counts letters.
fn shared(names: &[String]) -> String {
    let (mut text, mut last) = (String::new(), "");
    for name in names {
        let same = last.chars().zip(name.chars()).take_while(|(a, b)| a == b);
        let (units, bytes) = same.fold((0, 0), |(units, bytes), (letter, _)| {
            (units + letter.len_utf16(), bytes + letter.len_utf8())
        });
        text += &format!("{units} {}\n", &name[bytes..]);
        last = name;
    }
    text
}

fn little<'n>(numbers: impl IntoIterator<Item = &'n i32>) -> String {
    base64(&numbers.into_iter().flat_map(|number| number.to_le_bytes()).collect::<Vec<_>>())
}

/// The object; no `<` is in it, so that no text ends the element that it stands in.
pub fn json(sheet: &Sheet, reach: &Reach, origin: [i32; 3], legs: &[f32]) -> String {
    let lists = Lists::of(sheet);
    let legs: Vec<_> = legs.iter().flat_map(|number| number.to_le_bytes()).collect();
    let object = Object::new()
        .text("title", &scene::title(sheet).0)
        .raw("origin", format!("{origin:?}"))
        .raw("least", format!("{:?}", reach.least))
        .raw("greatest", format!("{:?}", reach.greatest))
        .text("legs", &base64(&legs))
        .text("runs", &little(lists.runs.iter().flatten()))
        .text("surveys", &shared(&lists.surveys))
        .text("names", &shared(&lists.names))
        .text("places", &little(&lists.places))
        .text("station_flags", &base64(&lists.flags));
    object.end().replace('<', "\\u003c")
}

#[cfg(test)]
mod tests {
    use super::shared;

    #[test]
    fn names_share_their_fronts() {
        let names =
            ["a.b.1", "a.b.12", "a.é\u{1f573}1", "a.é\u{1f573}2", "", "x"].map(String::from);
        assert_eq!(shared(&names), "0 a.b.1\n5 2\n2 é\u{1f573}1\n5 2\n0 \n0 x\n");
        assert_eq!(shared(&[]), "");
    }
}

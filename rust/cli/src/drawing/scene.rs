//! What is drawn of a sheet.

use crate::text::escaped;
use cockledrift::{reach, Date, Leg, Point, Reach, Record, Refusal, Sheet};

/// How a leg is drawn.
#[derive(Clone, Copy, PartialEq, Eq, Debug)]
pub enum Stroke {
    Cave,
    Duplicate,
    Surface,
    Splay,
}

impl Stroke {
    pub fn of(flags: u8) -> Stroke {
        match flags {
            _ if flags & 0x01 != 0 => Stroke::Surface,
            _ if flags & 0x04 != 0 => Stroke::Splay,
            _ if flags & 0x02 != 0 => Stroke::Duplicate,
            _ => Stroke::Cave,
        }
    }
}

/// A leg.
pub struct Line {
    pub stroke: Stroke,
    pub from: Point,
    pub to: Point,
}

/// A station that has a name.
pub struct Mark {
    pub name: String,
    pub entrance: bool,
    pub at: Point,
}

/// The legs and the stations of a survey, in the sheet's order.
pub struct Scene {
    pub lines: Vec<Line>,
    pub marks: Vec<Mark>,
    pub reach: Reach,
}

impl Scene {
    /// Those of the survey, or 21 where it has no leg.
    pub fn of(sheet: &Sheet, survey: &[u8]) -> Result<Scene, Refusal> {
        let reach = reach(sheet.bytes(), survey)?;
        let mut scene = Scene { lines: Vec::with_capacity(reach.legs), marks: Vec::new(), reach };
        for record in sheet.records().filter(|record| of_survey(record.label(), survey)) {
            match record {
                Record::Leg(Leg { flags, from, to, .. }) => {
                    scene.lines.push(Line { stroke: Stroke::of(flags), from, to });
                }
                // Anonymous stations and those on the wall go unnamed.
                Record::Station(station) if station.flags & 0x60 == 0 => scene.marks.push(Mark {
                    name: escaped(station.label),
                    entrance: station.flags & 0x04 != 0,
                    at: station.at,
                }),
                _ => {}
            }
        }
        Ok(scene)
    }
}

/// Whether the name is of the survey: the library says it, of a sheet with a leg of
/// that label alone.
fn of_survey(label: &[u8], survey: &[u8]) -> bool {
    let at = Point { x: 0, y: 0, z: 0 };
    let leg = Leg { flags: 0, style: 0, date: Date::None, from: at, to: at, label };
    let mut sheet = b"\x02\0\x04\0\0\0\0".to_vec();
    Record::Leg(leg).lay(&mut sheet);
    survey.is_empty() || reach(&sheet, survey).is_ok()
}

/// The title, and the coordinate system behind a zero byte.
pub fn title(sheet: &Sheet) -> (String, Option<String>) {
    let mut parts = sheet.header().title.split(|&byte| byte == 0);
    let title = parts.next().unwrap_or_default();
    (escaped(title), parts.next().filter(|system| !system.is_empty()).map(escaped))
}

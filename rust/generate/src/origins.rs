//! Origins for the viewer near the ends of a sheet's legs, and legs near an origin.

use crate::record::{short_sheet, station, Body, Leg};
use crate::rng::Rng;

/// The farthest that a coordinate may be from the origin's.
pub const FARTHEST: i32 = 16_777_216;

/// Differences at the limits, and around zero.
pub const LIMITS: [i32; 9] =
    [0, 1, -1, FARTHEST - 1, 1 - FARTHEST, FARTHEST, -FARTHEST, FARTHEST / 2 + 1, 3 - FARTHEST];

/// The ends of i32, and around zero.
pub const ENDS: [i32; 7] = [i32::MIN, i32::MIN + 1, -1, 0, 1, i32::MAX - 1, i32::MAX];

/// What an origin is beside the sheet that it was made for.
#[derive(Clone, Copy, PartialEq, Eq, PartialOrd, Ord, Debug)]
pub enum OriginKind {
    Zero,
    /// At the ends of i32.
    Extreme,
    /// An end of a leg.
    End,
    /// As far from it as may be, in one coordinate.
    Limit,
    /// One farther.
    Beyond,
    Any,
}

use OriginKind as Kind;

/// Where the ends of a leg stand in its record, its length bytes counted.
const FROM_PLACE: usize = 10;
const LABEL_PLACE: usize = 34;

/// Both ends of each leg, as far as the lengths of the records are good.
pub fn ends(sheet: &[u8]) -> Vec<[i32; 3]> {
    let mut ends = Vec::new();
    let mut rest = sheet.get(1..).unwrap_or(&[]);
    while let [high, low, kind, ..] = *rest {
        let size = 2 + usize::from(u16::from_be_bytes([high, low]));
        let Some(record) = rest.get(..size) else { break };
        if let (1, Some(places)) = (kind, record.get(FROM_PLACE..LABEL_PLACE)) {
            let number = |at: usize| i32::from_be_bytes([0, 1, 2, 3].map(|byte| places[at + byte]));
            ends.extend([0, 12].map(|at| [at, at + 4, at + 8].map(number)));
        }
        rest = &rest[size..];
    }
    ends
}

/// Origins to view a sheet from.
pub fn origins(rng: &mut Rng, sheet: &[u8]) -> Vec<(Kind, [i32; 3])> {
    let extreme = [0; 3].map(|_| rng.pick(&ENDS));
    let mut origins =
        vec![(Kind::Zero, [0; 3]), (Kind::Extreme, extreme), (Kind::Any, rng.numbers())];
    let ends = ends(sheet);
    if ends.is_empty() {
        return origins;
    }
    let end = rng.pick(&ends);
    origins.push((Kind::End, end));
    for (kind, far) in [(Kind::Limit, FARTHEST), (Kind::Beyond, FARTHEST + 1)] {
        let mut origin = end;
        let axis = rng.below(3);
        origin[axis] = origin[axis].wrapping_add(if rng.one_in(2) { far } else { -far });
        origins.push((kind, origin));
    }
    origins
}

/// A place whose coordinates are near the origin's, but for one leg in `far`.
fn place(rng: &mut Rng, origin: [i32; 3], far: usize) -> [i32; 3] {
    let mut place = origin.map(|number| {
        let difference = match rng.below(3) {
            0 => rng.pick(&LIMITS),
            1 => rng.next() as i32 >> 7,
            _ => rng.below(200) as i32 - 100,
        };
        number.saturating_add(difference)
    });
    if rng.one_in(far) {
        let axis = rng.below(3);
        let beyond = rng.pick(&[FARTHEST + 1, -1 - FARTHEST, i32::MAX, i32::MIN]);
        place[axis] = origin[axis].saturating_add(beyond);
    }
    place
}

/// A sheet whose legs are near the origin, few of them too far, with other records between.
pub fn survey(rng: &mut Rng, origin: [i32; 3]) -> Vec<u8> {
    let far = rng.pick(&[6, 40, 1000]);
    let count = rng.below(8);
    let records: Vec<Body> = (0..count)
        .map(|_| {
            let [from, to] = [0; 2].map(|_| place(rng, origin, far));
            let length = rng.below(5);
            let label = rng.name(length);
            match rng.below(4) {
                0 => station(0, rng.numbers(), &label),
                _ => Leg { from, to, ..Leg::plain(&label) }.body(),
            }
        })
        .collect();
    let version = rng.pick(&[1, 2]);
    short_sheet(version, &records)
}

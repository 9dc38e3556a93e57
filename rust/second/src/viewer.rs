//! Legs for the viewer, in two passes: the first judges the sheet and counts
//! its legs, the second writes their numbers.

use crate::sheet::{self, Record};
use crate::{no, Refusal};

/// Up to this magnitude an f32 holds every whole number.
const FARTHEST: u64 = 16_777_216;

/// How many legs were written, six numbers each.
#[derive(Clone, Copy, PartialEq, Eq, Debug)]
pub enum Viewed {
    Done { legs: usize },
    Refused { number: u8, place: usize },
}

/// Writes each leg of `sheet`, of version 1 or 2, to the front of `out`: "from x
/// y z, then to x y z, in centimetres, less an origin".
///
/// Refusals come as "12, then 20 with the record number of the first leg too
/// far, then 11 with the count of numbers needed" and leave `out` untouched.
pub fn viewer_legs(sheet: &[u8], origin: [i32; 3], out: &mut [f32]) -> Viewed {
    match view(sheet, origin, out) {
        Ok(legs) => Viewed::Done { legs },
        Err(Refusal { number, place }) => Viewed::Refused { number: number as u8, place },
    }
}

fn view(sheet: &[u8], origin: [i32; 3], out: &mut [f32]) -> Result<usize, Refusal> {
    let legs = count(sheet, origin)?;
    if out.len() < 6 * legs {
        return Err(no(11, 6 * legs));
    }
    let mut rooms = out.as_chunks_mut::<6>().0.iter_mut();
    sheet::all(sheet, |_, record| {
        if let Some(numbers) = leg(record).and_then(|leg| numbers(leg, origin)) {
            *rooms.next().expect("room for every leg") = numbers;
        }
    })?;
    Ok(legs)
}

/// The first pass: how many legs there are, or 12 or 20.
fn count(sheet: &[u8], origin: [i32; 3]) -> Result<usize, Refusal> {
    let (mut legs, mut too_far) = (0, None);
    sheet::all(sheet, |number, record| {
        let Some(leg) = leg(record) else { return };
        legs += 1;
        // A later 12 goes before this 20, so it is only kept in mind.
        if too_far.is_none() && numbers(leg, origin).is_none() {
            too_far = Some(no(20, number));
        }
    })?;
    match too_far {
        Some(refusal) => Err(refusal),
        None => Ok(legs),
    }
}

/// Both ends of a leg.
type Ends<'a> = [&'a [u8; 12]; 2];

#[inline(always)]
fn leg<'a>(record: &Record<'a>) -> Option<Ends<'a>> {
    match *record {
        Record::Leg { from, to, .. } => Some([from, to]),
        _ => None,
    }
}

/// The leg's six numbers, or nothing if one is too far from the origin.
#[inline(always)]
fn numbers([from, to]: Ends, origin: [i32; 3]) -> Option<[f32; 6]> {
    let [a, b, c] = less(from, origin)?;
    let [d, e, f] = less(to, origin)?;
    Some([a, b, c, d, e, f])
}

/// "Each difference of magnitude at most 16,777,216 must come out as exactly
/// that number, zero as plus zero."
#[inline(always)]
fn less(end: &[u8; 12], origin: [i32; 3]) -> Option<[f32; 3]> {
    let mut numbers = [0.0; 3];
    for (axis, coordinate) in sheet::point(end).into_iter().enumerate() {
        let difference = i64::from(coordinate) - i64::from(origin[axis]);
        if difference.unsigned_abs() > FARTHEST {
            return None;
        }
        numbers[axis] = difference as f32;
    }
    Some(numbers)
}

//! Legs for the viewer, compared by bit patterns: generated and damaged sheets, of both versions,
//! from origins near the ends of their legs; and every limit of a difference in every place.

use compare::{disagree, seed, sheets_wanted, Tally};
use generate::origins::{origins, survey, OriginKind, ENDS, FARTHEST};
use generate::record::{header, sheet_of, short_sheet, station, Body, Leg, VERSION_1, VERSION_2};
use generate::{sheets, Rng};
use second::{Answer, Viewed};
use std::collections::BTreeSet;

fn view(sheet: &[u8], origin: [i32; 3]) -> (Viewed, Vec<u32>) {
    compare::viewer_legs(sheet, origin)
        .unwrap_or_else(|difference| disagree("the legs for the viewer", sheet, &difference))
}

fn refused(number: u8, place: usize) -> (Viewed, Vec<u32>) {
    (Viewed::Refused { number, place }, Vec::new())
}

/// What a run has seen: answers by kind of origin, and the bits of all numbers.
#[derive(Default)]
struct Seen {
    tally: Tally<OriginKind>,
    bits: BTreeSet<u32>,
}

impl Seen {
    fn ask(&mut self, kind: OriginKind, sheet: &[u8], origin: [i32; 3]) {
        let answer = match view(sheet, origin) {
            (Viewed::Done { legs }, bits) => {
                self.bits.extend(bits);
                Answer::Done { bytes: 0, records: legs, version: 0 }
            }
            (Viewed::Refused { number, place }, _) => Answer::Refused { number, place },
        };
        self.tally.count(kind, answer);
    }

    fn ask_all(&mut self, rng: &mut Rng, sheet: &[u8]) {
        for (kind, origin) in origins(rng, sheet) {
            self.ask(kind, sheet, origin);
        }
    }
}

#[test]
fn sheets_are_viewed_alike() {
    let mut seen = Seen::default();
    let mut rng = Rng::new(seed(), 104);
    for (_, sheet) in sheets::fixed() {
        seen.ask_all(&mut rng, &sheet);
    }
    let rounds = (0..).flat_map(|number| sheets::round(seed(), number));
    for (_, sheet) in rounds.take(sheets_wanted()) {
        seen.ask_all(&mut rng, &sheet);
    }
    seen.tally.print("sheets viewed");
    seen.tally.must_have_seen(&[0, 12, 20]);
}

/// Sheets whose legs are near the origin, so that most are viewed and the numbers are at the limits.
#[test]
fn near_legs_are_viewed_alike() {
    let mut seen = Seen::default();
    let mut rng = Rng::new(seed(), 1040);
    for _ in 0..sheets_wanted() {
        let origin = [0; 3].map(|_| if rng.one_in(4) { rng.pick(&ENDS) } else { rng.number() });
        seen.ask(OriginKind::Any, &survey(&mut rng, origin), origin);
    }
    seen.tally.print("surveys viewed");
    seen.tally.must_have_seen(&[0, 20]);
    for difference in [0, 1, -1, FARTHEST - 1, 1 - FARTHEST, FARTHEST, -FARTHEST] {
        let bits = (difference as f32).to_bits();
        assert!(seen.bits.contains(&bits), "no number was {difference}");
    }
    assert!(!seen.bits.contains(&(-0.0f32).to_bits()), "a zero is minus zero");
}

/// One leg whose number at this place is the coordinate, from an origin with `less` there.
fn one(place: usize, coordinate: i32, less: i32) -> (Vec<u8>, [i32; 3]) {
    let [mut from, mut to, mut origin] = [[0; 3]; 3];
    let end = if place < 3 { &mut from } else { &mut to };
    end[place % 3] = coordinate;
    origin[place % 3] = less;
    // The other end's coordinate of this axis is the origin's own.
    let other = if place < 3 { &mut to } else { &mut from };
    other[place % 3] = less;
    let leg = Leg { from, to, ..Leg::plain(b"a") }.body();
    (short_sheet(VERSION_2, &[station(0, [i32::MIN; 3], b"a"), leg]), origin)
}

/// What is due of such a leg: the difference's own bits, or 20 at record 1.
fn due(place: usize, coordinate: i32, less: i32) -> (Viewed, Vec<u32>) {
    let difference = i64::from(coordinate) - i64::from(less);
    if difference.abs() > i64::from(FARTHEST) {
        return refused(20, 1);
    }
    let mut bits = vec![0; 6];
    bits[place] = (difference as i32 as f32).to_bits();
    assert_eq!(f64::from(f32::from_bits(bits[place])), difference as f64);
    (Viewed::Done { legs: 1 }, bits)
}

#[test]
fn every_limit_in_every_place() {
    let limits = [0, 1, FARTHEST - 1, FARTHEST, FARTHEST + 1];
    for place in 0..6 {
        for difference in limits.iter().flat_map(|&limit| [limit, -limit]) {
            for less in [0, 1, -1, 1_000_000, -20_000_000] {
                let coordinate = less + difference;
                let (sheet, origin) = one(place, coordinate, less);
                assert_eq!(view(&sheet, origin), due(place, coordinate, less));
            }
        }
    }
}

#[test]
fn ends_of_i32_less_ends_of_i32() {
    let near = [i32::MIN + FARTHEST, i32::MIN + FARTHEST + 1, i32::MAX - FARTHEST, FARTHEST];
    let numbers = [&ENDS[..], &near].concat();
    for place in 0..6 {
        for &coordinate in &numbers {
            for &less in &numbers {
                let (sheet, origin) = one(place, coordinate, less);
                assert_eq!(view(&sheet, origin), due(place, coordinate, less));
            }
        }
    }
}

fn to_x(x: i32) -> Body {
    Leg { to: [x, 0, 0], ..Leg::plain(b"") }.body()
}

/// 12 anywhere, then 20 at the first leg too far, then 11 with the numbers needed.
#[test]
fn refusals_in_their_order() {
    let (near, far) = (to_x(FARTHEST), to_x(-FARTHEST - 1));
    let place = station(0, [i32::MAX; 3], b"a");
    for version in [VERSION_1, VERSION_2] {
        let sheet = |records: &[&Body]| {
            short_sheet(version, &records.iter().map(|&body| body.clone()).collect::<Vec<_>>())
        };
        let asked = |records: &[&Body]| view(&sheet(records), [0; 3]);
        assert_eq!(asked(&[]), (Viewed::Done { legs: 0 }, vec![]));
        assert_eq!(asked(&[&place]), (Viewed::Done { legs: 0 }, vec![]));
        assert_eq!(asked(&[&place, &near, &place, &far, &far]), refused(20, 3));
        assert_eq!(asked(&[&far, &near, &far]), refused(20, 0));
        assert_eq!(asked(&[&far, &near, &vec![9]]), refused(12, 2));
        assert_eq!(asked(&[&near, &place, &near]).0, Viewed::Done { legs: 2 });
        for room in 0..12 {
            let told = second::viewer_legs(&sheet(&[&near, &near]), [0; 3], &mut vec![0.5; room]);
            assert_eq!(told, Viewed::Refused { number: 11, place: 12 });
        }
        let bad = sheet_of(version, &[header(2, b"A", b"@0"), far.clone()]);
        assert_eq!(view(&bad, [0; 3]), refused(12, 0));
    }
    assert_eq!(view(&[], [0; 3]), refused(12, 0));
    assert_eq!(view(&short_sheet(3, &[far]), [0; 3]), refused(12, 0));
}

/// Minus zero, to before from, a number touched by a refusal or past the last leg's, a count or a
/// place that is off by one are found.
#[test]
fn wrong_answers_are_found() {
    let sheet = short_sheet(VERSION_2, &[to_x(5), to_x(0)]);
    let far = short_sheet(VERSION_2, &[to_x(i32::MAX), to_x(i32::MAX)]);
    type Lie = fn(&mut [f32], Viewed) -> Viewed;
    let lies: [(&[u8], Lie); 6] = [
        (&sheet, |out, told| {
            out.iter_mut().filter(|number| **number == 0.0).for_each(|number| *number = -0.0);
            told
        }),
        (&sheet, |out, told| {
            if out.len() >= 12 {
                out[..6].rotate_left(3);
            }
            told
        }),
        (&sheet, |out, told| {
            if let Some(last) = out.get_mut(12) {
                *last = 0.0;
            }
            told
        }),
        (&sheet, |out, told| {
            if let (Some(first), Viewed::Refused { .. }) = (out.first_mut(), told) {
                *first = 0.0;
            }
            told
        }),
        (&sheet, |_, told| match told {
            Viewed::Done { legs } => Viewed::Done { legs: legs + 1 },
            refused => refused,
        }),
        (&far, |_, told| match told {
            Viewed::Refused { number: 20, place } => {
                Viewed::Refused { number: 20, place: place + 1 }
            }
            other => other,
        }),
    ];
    for (place, (sheet, lie)) in lies.into_iter().enumerate() {
        let liar = move |sheet: &[u8], origin: [i32; 3], out: &mut [f32]| {
            let told = second::viewer_legs(sheet, origin, out);
            lie(out, told)
        };
        compare::viewer_legs_by(sheet, [0; 3], &liar, &second::viewer_legs)
            .expect_err(&format!("lie {place} went unnoticed"));
    }
}

//! Request #104: legs for the viewer.

mod common;

use common::made::*;
use common::*;
use second::*;

const FAR: i32 = 16_777_216;

/// A number that no difference gives, told from others by its bits.
const UNUSED: f32 = f32::from_bits(0x7fa5_a5a5);

fn no(number: u8, place: usize) -> Viewed {
    Viewed::Refused { number, place }
}

fn at(from: [i32; 3], to: [i32; 3]) -> Rec {
    leg(5, Date::None, from, to, b"a")
}

fn bits(numbers: &[f32]) -> Vec<u32> {
    numbers.iter().map(|number| number.to_bits()).collect()
}

fn unused(numbers: &[f32]) -> bool {
    numbers.iter().all(|number| number.to_bits() == UNUSED.to_bits())
}

/// The bits of all numbers, from buffers too small, exact and too large, which
/// are watched; or the refusal.
fn view_all(sheet: &[u8], origin: [i32; 3]) -> Result<Vec<u32>, (u8, usize)> {
    let mut large = vec![UNUSED; 400];
    let legs = match viewer_legs(sheet, origin, &mut large) {
        Viewed::Done { legs } => legs,
        Viewed::Refused { number, place } => {
            assert!(unused(&large));
            assert_eq!(viewer_legs(sheet, origin, &mut []), no(number, place));
            return Err((number, place));
        }
    };
    assert!(unused(&large[6 * legs..]));
    for room in 0..6 * legs {
        let mut small = vec![UNUSED; room];
        assert_eq!(viewer_legs(sheet, origin, &mut small), no(11, 6 * legs));
        assert!(unused(&small));
    }
    let mut exact = vec![UNUSED; 6 * legs];
    assert_eq!(viewer_legs(sheet, origin, &mut exact), Viewed::Done { legs });
    assert_eq!(bits(&exact), bits(&large[..6 * legs]));
    Ok(bits(&exact))
}

#[test]
fn one_leg_byte_by_byte() {
    let sheet = [
        &[2, 0, 7, 0, 0, 0, 1, b'A', b'@', b'0'][..],
        &[0, 33, 1, 0, 5, 0, 0, 0, 0, 0],
        &[0, 0, 0, 1, 0xff, 0xff, 0xff, 0xfe, 0, 0, 1, 0],
        &[0, 0, 0, 11, 0xff, 0xff, 0xff, 0xfd, 0x00, 0xff, 0xff, 0xff],
        b"a",
    ];
    // 1, -2, 256 and 11, -3, 16777215 by the bits of IEEE 754.
    let expected =
        [0x3f80_0000, 0xc000_0000, 0x4380_0000, 0x4130_0000, 0xc040_0000, 0x4b7f_ffff].to_vec();
    assert_eq!(view_all(&sheet.concat(), [0; 3]), Ok(expected));
    // Less 1, -2, 256: zeros, and 10, -1, 16776959.
    let expected = [0, 0, 0, 0x4120_0000, 0xbf80_0000, 0x4b7f_feff].to_vec();
    assert_eq!(view_all(&sheet.concat(), [1, -2, 256]), Ok(expected));
}

#[test]
fn every_difference_up_to_the_farthest_is_exact() {
    let rows = [
        (0, 0x0000_0000),
        (1, 0x3f80_0000),
        (-1, 0xbf80_0000),
        (16_777_215, 0x4b7f_ffff),
        (-16_777_215, 0xcb7f_ffff),
        (FAR, 0x4b80_0000),
        (-FAR, 0xcb80_0000),
    ];
    for (difference, expected) in rows {
        for origin in [0, 1, -1, 1_000_000_007, i32::MAX - FAR, i32::MIN + FAR] {
            let mut numbers = vec![0; 6];
            for place in 0..6 {
                let mut ends = [origin; 6];
                ends[place] = origin + difference;
                let [a, b, c, d, e, f] = ends;
                numbers[place] = expected;
                let answer = view_all(&sheet(&[at([a, b, c], [d, e, f])]), [origin; 3]);
                assert_eq!(answer.as_ref(), Ok(&numbers), "{difference} {origin}");
                numbers[place] = 0;
            }
        }
    }
}

#[test]
fn zero_is_plus_zero() {
    for origin in [0, 1, -1, i32::MIN, i32::MAX] {
        let there = sheet(&[at([origin; 3], [origin; 3])]);
        assert_eq!(view_all(&there, [origin; 3]), Ok(vec![0; 6]));
    }
}

#[test]
fn all_whole_numbers_in_reach_come_back() {
    // Every 997th, in both signs, one leg in a buffer of its own.
    let mut out = [UNUSED; 6];
    for number in (0..=FAR).step_by(997).chain(FAR - 20..=FAR) {
        let sheet = sheet(&[at([number, -number, 0], [number - 1, 1 - number, 1])]);
        assert_eq!(viewer_legs(&sheet, [0; 3], &mut out), Viewed::Done { legs: 1 });
        let back = out.map(|number| number as i64);
        let [a, b] = [number, number - 1].map(i64::from);
        assert_eq!(back, [a, -a, 0, b, -b, 1]);
        assert!(out.iter().all(|number| number.fract() == 0.0));
    }
}

#[test]
fn no_20_for_each_coordinate() {
    let near = at([0; 3], [1; 3]);
    for (origin, value) in [
        (0, FAR + 1),
        (0, -FAR - 1),
        (1, FAR + 2),
        (-1, FAR),
        (1, -FAR),
        (0, i32::MAX),
        (0, i32::MIN),
        (5, i32::MIN),
        (-5, i32::MAX),
    ] {
        for place in 0..6 {
            let mut ends = [origin; 6];
            ends[place] = value;
            let [a, b, c, d, e, f] = ends;
            let far = at([a, b, c], [d, e, f]);
            let records = [station(b"x"), near.clone(), Rec::Error([0; 5]), far.clone(), far];
            assert_eq!(view_all(&sheet(&records), [origin; 3]), Err((20, 3)));
            assert_eq!(view_all(&sheet(&records[3..]), [origin; 3]), Err((20, 0)));
        }
    }
    // The whole width of i32, both ways.
    let low = sheet(&[at([i32::MIN; 3], [i32::MIN; 3])]);
    assert_eq!(view_all(&low, [i32::MAX; 3]), Err((20, 0)));
    let high = sheet(&[at([i32::MAX; 3], [i32::MAX; 3])]);
    assert_eq!(view_all(&high, [i32::MIN; 3]), Err((20, 0)));
    // Differences are from the origin, not between the ends.
    let wide = sheet(&[at([-FAR; 3], [FAR; 3])]);
    assert_eq!(view_all(&wide, [0; 3]), Ok([[0xcb80_0000; 3], [0x4b80_0000; 3]].concat()));
}

#[test]
fn each_axis_has_its_own_origin() {
    let sheet = sheet(&[at([10, 200, 3000], [11, 201, 3001])]);
    let ones = [[0; 3], [0x3f80_0000; 3]].concat();
    assert_eq!(view_all(&sheet, [10, 200, 3000]), Ok(ones));
}

#[test]
fn only_legs_are_written_in_sheet_order() {
    let far_away = Rec::Station { flags: 0, at: [i32::MAX; 3], label: vec![] };
    let others = [far_away, section([i32::MIN; 4], b""), Rec::Error([i32::MAX; 5])];
    assert_eq!(view_all(&sheet(&others), [0; 3]), Ok(vec![]));
    assert_eq!(view_all(&sheet(&[]), [0; 3]), Ok(vec![]));
    let records = [
        &others[..],
        &[at([1; 3], [2; 3])],
        &others,
        &[leg(3, Date::Day(1), [2; 3], [0; 3], b""), at([0; 3], [1; 3])],
    ];
    let expected = bits(&[[1.0; 3], [2.0; 3], [2.0; 3], [0.0; 3], [0.0; 3], [1.0; 3]].concat());
    for sheet in [sheet(&records.concat()), sheet_v1(&records.concat())] {
        assert_eq!(view_all(&sheet, [0; 3]).as_ref(), Ok(&expected));
    }
}

#[test]
fn no_12_then_20_then_11() {
    let far = at([i32::MAX; 3], [0; 3]);
    let records = [at([0; 3], [0; 3]), far.clone(), far];
    assert_eq!(viewer_legs(&sheet(&records), [0; 3], &mut []), no(20, 1));
    let broken = [&sheet(&records)[..], &[0, 1, 5]].concat();
    assert_eq!(view_all(&broken, [0; 3]), Err((12, 3)));
    let near = sheet(&[[0; 3]; 3].map(|place| at(place, place)));
    assert_eq!(viewer_legs(&near, [0; 3], &mut []), no(11, 18));
    let mut out = [UNUSED; 20];
    assert_eq!(viewer_legs(&near, [0; 3], &mut out[..17]), no(11, 18));
    assert!(unused(&out));
    assert_eq!(viewer_legs(&near, [0; 3], &mut out), Viewed::Done { legs: 3 });
    assert_eq!(bits(&out[..18]), [0; 18]);
    assert!(unused(&out[18..]));
    for bad in [&[][..], &[2], &[0, 0, 4, 0, 0, 0, 0], &[3, 0, 4, 0, 0, 0, 0], &[2, 0, 3, 0, 0, 0]]
    {
        assert_eq!(view_all(bad, [0; 3]), Err((12, 0)));
    }
    let old = section([0; 4], b"b").bytes_v1();
    assert_eq!(view_all(&[&near[..], &old].concat(), [0; 3]), Err((12, 3)));
}

/// Each leg's differences by looking at each record.
fn looked_at(records: &[Rec], origin: [i32; 3]) -> Result<Vec<i64>, (u8, usize)> {
    let mut all = Vec::new();
    for (number, record) in records.iter().enumerate() {
        let Rec::Leg { from, to, .. } = record else { continue };
        for (coordinate, origin) in from.iter().chain(to).zip(origin.iter().cycle()) {
            let difference = i64::from(*coordinate) - i64::from(*origin);
            if difference.abs() > i64::from(FAR) {
                return Err((20, number));
            }
            all.push(difference);
        }
    }
    Ok(all)
}

/// Coordinates around the farthest from the origin, most within it.
fn around(rng: &mut Rng, origin: [i32; 3]) -> [i32; 3] {
    origin.map(|origin| {
        let difference = match rng.below(60) {
            0 => FAR + 1,
            1 => -FAR - 1,
            2..=9 => FAR,
            10..=17 => -FAR,
            18..=30 => 0,
            _ => rng.below(2 * FAR as usize) as i32 - FAR,
        };
        origin.saturating_add(difference)
    })
}

#[test]
fn made_sheets_are_as_looked_at() {
    let mut rng = Rng(0x0104_f320);
    let (mut good, mut far) = (0, 0);
    for round in 0..6000 {
        let origin = std::array::from_fn(|_| rng.next() as i32);
        let mut records = records(&mut rng, 3 + (round % 6) as u8);
        for record in &mut records {
            if let Rec::Leg { from, to, .. } = record {
                (*from, *to) = (around(&mut rng, origin), around(&mut rng, origin));
            }
        }
        let expected = looked_at(&records, origin);
        let sheet = if rng.chance(2) { sheet(&records) } else { sheet_v1(&records) };
        let viewed = view_all(&sheet, origin);
        match (&viewed, &expected) {
            (Ok(bits), Ok(numbers)) => {
                let back = bits.iter().map(|&bits| f32::from_bits(bits) as i64);
                assert!(back.eq(numbers.iter().copied()), "{round}");
                assert!(!bits.contains(&0x8000_0000), "{round}");
                good += 1;
            }
            _ => {
                assert_eq!(viewed.err(), expected.err(), "{round}");
                far += 1;
            }
        }
    }
    assert!(good > 1000 && far > 1000, "{good} {far}");
}

#[test]
fn spoiled_sheets_are_12_as_for_writing() {
    let mut rng = Rng(0x0104_5ee7);
    let (mut good, mut bad) = (0, 0);
    for round in 0..20_000 {
        let records = records(&mut rng, 8);
        let mut spoiled = if rng.chance(3) { sheet_v1(&records) } else { sheet(&records) };
        spoil_sheet(&mut rng, &mut spoiled);
        let viewed = view_all(&spoiled, [0; 3]);
        match write(&spoiled, &mut []) {
            Answer::Refused { number: 12, place } => {
                assert_eq!(viewed, Err((12, place)), "{round}");
                bad += 1;
            }
            _ => {
                assert!(matches!(viewed, Ok(_) | Err((20, _))), "{round}");
                good += 1;
            }
        }
    }
    assert!(good > 1000 && bad > 1000, "{good} {bad}");
}

//! Request #102: how far a survey reaches.

mod common;

use common::made::*;
use common::*;
use second::*;

const NO_LEG: Reach = Reach::Refused { number: 21, place: 0 };

/// A leg of the survey.
fn at(from: [i32; 3], to: [i32; 3], label: &[u8]) -> Rec {
    leg(0, Date::None, from, to, label)
}

fn reached(least: [i32; 3], greatest: [i32; 3], legs: usize) -> Reach {
    Reach::Reached { least, greatest, legs }
}

#[test]
fn one_leg_byte_by_byte() {
    let sheet = [
        &[2, 0, 7, 0, 0, 0, 1, b'A', b'@', b'0'][..],
        &[0, 33, 1, 0, 5, 0, 0, 0, 0, 0],
        &[0, 0, 0, 1, 0xff, 0xff, 0xff, 0xfe, 0, 0, 1, 0],
        &[0, 0, 0, 2, 0xff, 0xff, 0xff, 0xfd, 0x7f, 0xff, 0xff, 0xff],
        b"a",
    ];
    let expected = reached([1, -3, 256], [2, -2, i32::MAX], 1);
    assert_eq!(reach(&sheet.concat(), b"a"), expected);
    assert_eq!(reach(&sheet.concat(), b""), expected);
    assert_eq!(reach(&sheet.concat(), b"b"), NO_LEG);
}

#[test]
fn labels_that_take_part() {
    let labels: [&[u8]; 12] =
        [b"", b"a", b"a.b", b"a.b.c", b"ab", b"a.", b"a..b", b".a", b".", b"b.a", b"A", b"a\0"];
    let rows: [(&[u8], &[&[u8]]); 14] = [
        (b"", &labels),
        (b"a", &[b"a", b"a.b", b"a.b.c", b"a.", b"a..b"]),
        (b"a.", &[b"a.", b"a..b"]),
        (b"a..", &[]),
        (b"a.b", &[b"a.b", b"a.b.c"]),
        (b"a.b.", &[]),
        (b"a.b.c", &[b"a.b.c"]),
        (b"a..b", &[b"a..b"]),
        (b"ab", &[b"ab"]),
        (b".", &[b"."]),
        (b".a", &[b".a"]),
        (b"b", &[b"b.a"]),
        (b"A", &[b"A"]),
        (b"a\0", &[b"a\0"]),
    ];
    // Each leg has an x of its own, so the bounds tell who took part.
    let place = |label: &[u8]| labels.iter().position(|one| *one == label).unwrap() as i32;
    let legs: Vec<Rec> =
        labels.iter().map(|label| at([place(label), 0, 0], [place(label), 1, 2], label)).collect();
    for (name, part) in rows {
        let places: Vec<i32> = part.iter().map(|label| place(label)).collect();
        let expected = match (places.iter().min(), places.iter().max()) {
            (Some(&least), Some(&most)) => reached([least, 0, 0], [most, 1, 2], part.len()),
            _ => NO_LEG,
        };
        assert_eq!(reach(&sheet(&legs), name), expected, "{name:?}");
        assert_eq!(reach(&sheet_v1(&legs), name), expected, "{name:?}");
    }
}

#[test]
fn each_bound_from_either_end() {
    for axis in 0..3 {
        for (value, least, greatest) in
            [(i32::MIN, i32::MIN, 2), (-5, -5, 2), (9, 1, 9), (i32::MAX, 1, i32::MAX)]
        {
            let mut far = [1; 3];
            far[axis] = value;
            let (mut low, mut high) = ([1; 3], [2; 3]);
            (low[axis], high[axis]) = (least, greatest);
            let near = at([1; 3], [2; 3], b"a");
            for leg in [at(far, [1; 3], b"a"), at([1; 3], far, b"a")] {
                let expected = reached(low, high, 2);
                assert_eq!(reach(&sheet(&[near.clone(), leg.clone()]), b"a"), expected);
                assert_eq!(reach(&sheet(&[leg, near.clone()]), b"a"), expected);
            }
        }
    }
    let everything = at([i32::MIN; 3], [i32::MAX; 3], b"");
    assert_eq!(reach(&sheet(&[everything]), b""), reached([i32::MIN; 3], [i32::MAX; 3], 1));
    // A bound of its own, not one pulled in by 0.
    let high = at([i32::MAX; 3], [i32::MAX; 3], b"");
    assert_eq!(reach(&sheet(&[high]), b""), reached([i32::MAX; 3], [i32::MAX; 3], 1));
    let low = at([i32::MIN; 3], [i32::MIN; 3], b"");
    assert_eq!(reach(&sheet(&[low]), b""), reached([i32::MIN; 3], [i32::MIN; 3], 1));
}

#[test]
fn only_legs_take_part() {
    let others = [
        Rec::Station { flags: 0x7f, at: [-99; 3], label: b"a".to_vec() },
        section([-99; 4], b"a"),
        Rec::Error([99; 5]),
    ];
    assert_eq!(reach(&sheet(&others), b"a"), NO_LEG);
    assert_eq!(reach(&sheet(&others), b""), NO_LEG);
    assert_eq!(reach(&sheet(&[]), b""), NO_LEG);
    // A leg takes part whatever its flags, style and date, and as often as it
    // stands there.
    let leg = Rec::Leg {
        flags: 7,
        style: 4,
        date: Date::Range(3, 9),
        from: [1, 2, 3],
        to: [3, 2, 1],
        label: b"a.b".to_vec(),
    };
    let once = [&others[..], &[leg]].concat();
    let all = [&once[..], &once].concat();
    assert_eq!(reach(&sheet(&all), b"a"), reached([1, 2, 1], [3, 2, 3], 2));
    // Style 5 after another style can't be written as v8, but has a reach.
    let styles = [at([1; 3], [1; 3], b"a"), leg_5([2; 3])];
    assert_eq!(write_all(&sheet(&styles)), Err((13, 1)));
    assert_eq!(reach(&sheet(&styles), b""), reached([1; 3], [2; 3], 2));
    let extended = sheet_with(1, b"", b"", &[leg_5([2; 3])]);
    assert_eq!(reach(&extended, b"a"), reached([2; 3], [2; 3], 1));
}

fn leg_5(place: [i32; 3]) -> Rec {
    leg(5, Date::None, place, place, b"a")
}

#[test]
fn names_of_any_length() {
    let long = vec![b'x'; 4096];
    let longest = sheet(&[at([1; 3], [1; 3], &long)]);
    let one = reached([1; 3], [1; 3], 1);
    assert_eq!(reach(&longest, &long), one);
    assert_eq!(reach(&longest, &long[..4095]), NO_LEG);
    for length in [4097, 65_536, 1_000_000] {
        assert_eq!(reach(&longest, &vec![b'x'; length]), NO_LEG);
    }
    let dot = [&long[..4095], b"."].concat();
    assert_eq!(reach(&sheet(&[at([1; 3], [1; 3], &dot)]), &long[..4095]), one);
}

#[test]
fn no_12_before_21() {
    let no_12 = |place| Reach::Refused { number: 12, place };
    for bad in [&[][..], &[2], &[0, 0, 4, 0, 0, 0, 0], &[3, 0, 4, 0, 0, 0, 0], &[2, 0, 3, 0, 0, 0]]
    {
        assert_eq!(reach(bad, b""), no_12(0));
    }
    let good = [at([1; 3], [1; 3], b"a"), station(b"b")];
    for (bad, name) in [(&[0][..], &b"a"[..]), (&[0, 1, 5], b"none"), (&[0, 2, 4, 0], b"")] {
        assert_eq!(reach(&[&sheet(&good)[..], bad].concat(), name), no_12(2));
    }
    // A bad record that takes no part is 12 too: a section of version 1 in a
    // version 2 sheet.
    let old = section([0; 4], b"b").bytes_v1();
    assert_eq!(reach(&[&sheet(&good)[..], &old].concat(), b"a"), no_12(2));
    let one = reached([1; 3], [1; 3], 1);
    assert_eq!(reach(&[&sheet_v1(&good)[..], &old].concat(), b"a"), one);
}

/// The reach by looking at each record.
fn looked_at(records: &[Rec], name: &[u8]) -> Reach {
    let (mut ends, mut legs) = (Vec::new(), 0);
    for record in records {
        let Rec::Leg { from, to, label, .. } = record else { continue };
        let below = [name, b"."].concat();
        if name.is_empty() || label == name || label.starts_with(&below) {
            ends.extend([*from, *to]);
            legs += 1;
        }
    }
    if legs == 0 {
        return NO_LEG;
    }
    let of = |axis: usize| ends.iter().map(move |end| end[axis]);
    let least = std::array::from_fn(|axis| of(axis).min().unwrap());
    let greatest = std::array::from_fn(|axis| of(axis).max().unwrap());
    reached(least, greatest, legs)
}

/// The start of some label, mostly up to a dot.
fn name_in(rng: &mut Rng, records: &[Rec]) -> Vec<u8> {
    let labels: Vec<&[u8]> = records.iter().filter_map(Rec::label).collect();
    if labels.is_empty() || rng.chance(8) {
        return b"a".to_vec();
    }
    let label = labels[rng.below(labels.len())];
    let dots: Vec<usize> = (0..label.len()).filter(|&place| label[place] == b'.').collect();
    let end = match rng.below(3) {
        0 => label.len(),
        1 if !dots.is_empty() => dots[rng.below(dots.len())],
        _ => rng.below(label.len() + 1),
    };
    label[..end].to_vec()
}

#[test]
fn made_sheets_are_as_looked_at() {
    let mut rng = Rng(0x0102_4ea0);
    let mut seen = [0; 4];
    for round in 0..20_000 {
        let records = records(&mut rng, 3 + (round % 6) as u8);
        let name = name_in(&mut rng, &records);
        let expected = looked_at(&records, &name);
        assert_eq!(reach(&sheet(&records), &name), expected, "{round}");
        assert_eq!(reach(&sheet_v1(&records), &name), expected, "{round}");
        let legs = records.iter().filter(|record| matches!(record, Rec::Leg { .. })).count();
        seen[match expected {
            Reach::Refused { .. } => 0,
            Reach::Reached { legs: 1, .. } => 1,
            Reach::Reached { legs: part, .. } if part < legs => 2,
            Reach::Reached { .. } => 3,
        }] += 1;
    }
    assert!(seen.iter().all(|&count| count > 500), "{seen:?}");
}

#[test]
fn spoiled_sheets_are_12_as_for_writing() {
    let mut rng = Rng(0x0102_5ee7);
    let (mut good, mut bad) = (0, 0);
    for round in 0..20_000 {
        let records = records(&mut rng, 8);
        let mut spoiled = if rng.chance(3) { sheet_v1(&records) } else { sheet(&records) };
        spoil_sheet(&mut rng, &mut spoiled);
        let name = name_in(&mut rng, &records);
        match (write(&spoiled, &mut []), reach(&spoiled, &name)) {
            (Answer::Refused { number: 12, place }, answer) => {
                assert_eq!(answer, Reach::Refused { number: 12, place }, "{round}");
                bad += 1;
            }
            (_, answer) => {
                assert!(answer == NO_LEG || matches!(answer, Reach::Reached { .. }), "{round}");
                good += 1;
            }
        }
    }
    assert!(good > 1000 && bad > 1000, "{good} {bad}");
}

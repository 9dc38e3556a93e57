//! How far a survey reaches: generated and damaged sheets, of both versions, each asked for
//! names near the labels of its legs.

use compare::{disagree, hex, seed, sheets_wanted, Tally};
use generate::record::{header, sheet_of, short_sheet, station, Leg, VERSION_1, VERSION_2};
use generate::surveys::{names, NameKind};
use generate::{sheets, Rng};
use second::{Answer, Reach};
use std::collections::BTreeSet;

const NO_LEG: Reach = Reach::Refused { number: 21, place: 0 };

fn reach(sheet: &[u8], name: &[u8]) -> Reach {
    compare::reach(sheet, name).unwrap_or_else(|difference| {
        disagree(&format!("how far {} reaches", hex(name)), sheet, &difference)
    })
}

fn reached(least: [i32; 3], greatest: [i32; 3], legs: usize) -> Reach {
    Reach::Reached { least, greatest, legs }
}

/// What a run has seen: answers by kind of name, bounds, and the kinds of which some names took
/// legs and some took none.
#[derive(Default)]
struct Seen {
    tally: Tally<NameKind>,
    bounds: BTreeSet<i32>,
    taking: BTreeSet<NameKind>,
    empty: BTreeSet<NameKind>,
}

impl Seen {
    fn ask(&mut self, kind: NameKind, sheet: &[u8], name: &[u8]) {
        let answer = match reach(sheet, name) {
            Reach::Reached { least, greatest, legs } => {
                self.bounds.extend([least, greatest].concat());
                self.taking.insert(kind);
                Answer::Done { bytes: 0, records: legs, version: 0 }
            }
            Reach::Refused { number, place } => {
                if number == 21 {
                    self.empty.insert(kind);
                }
                Answer::Refused { number, place }
            }
        };
        self.tally.count(kind, answer);
    }

    fn ask_all(&mut self, rng: &mut Rng, sheet: &[u8]) {
        for (kind, name) in names(rng, sheet) {
            self.ask(kind, sheet, &name);
        }
    }
}

#[test]
fn surveys_reach_alike() {
    use NameKind::*;
    let mut seen = Seen::default();
    let mut rng = Rng::new(seed(), 102);
    for (_, sheet) in sheets::fixed() {
        seen.ask_all(&mut rng, &sheet);
    }
    let rounds = (0..).flat_map(|number| sheets::round(seed(), number));
    for (_, sheet) in rounds.take(sheets_wanted()) {
        seen.ask_all(&mut rng, &sheet);
    }
    seen.tally.print("surveys asked for");
    seen.tally.must_have_seen(&[0, 12, 21]);
    for end in [i32::MIN, -1, 0, i32::MAX] {
        assert!(seen.bounds.contains(&end), "no bound was {end}");
    }
    for kind in [Empty, Label, Survey, FinalDot, Front, Longer, Changed, Any] {
        assert!(seen.taking.contains(&kind), "no {kind:?} took a leg");
    }
    for kind in [Empty, FinalDot, Front, Longer, Changed, Huge, Any] {
        assert!(seen.empty.contains(&kind), "every {kind:?} took a leg");
    }
}

/// A label that is the name, or begins with it and then a dot; the empty name takes all.
#[test]
fn labels_that_take_part() {
    let labels: [&[u8]; 7] = [b"a", b"a.b", b"ab", b"a.", b"a..b", b"", b"b.a"];
    let legs: Vec<_> = labels.iter().map(|label| Leg::plain(label).body()).collect();
    let due: [(&[u8], usize); 9] = [
        (b"", 7),
        (b"a", 4),
        (b"ab", 1),
        (b"a.", 2),
        (b"a.b", 1),
        (b"a..", 0),
        (b"b", 1),
        (b".", 0),
        (b"b.a", 1),
    ];
    for version in [VERSION_1, VERSION_2] {
        let sheet = short_sheet(version, &legs);
        for (name, count) in due {
            let due = if count == 0 { NO_LEG } else { reached([0; 3], [0; 3], count) };
            assert_eq!(reach(&sheet, name), due, "{}", hex(name));
        }
    }
}

/// Names around the words by which they are compared, each byte of them wrong in turn.
#[test]
fn names_of_any_length() {
    for length in 0..40 {
        let label: Vec<u8> = (0..length).map(|place| b'a' + (place % 26) as u8).collect();
        for behind in [&b""[..], b".", b".x", b"x"] {
            let leg = Leg::plain(&[&label[..], behind].concat()).body();
            let sheet = short_sheet(VERSION_2, &[leg]);
            let takes = length == 0 || behind != b"x";
            let due = if takes { reached([0; 3], [0; 3], 1) } else { NO_LEG };
            assert_eq!(reach(&sheet, &label), due);
            for place in 0..length {
                let mut name = label.clone();
                name[place] ^= 0x20;
                assert_eq!(reach(&sheet, &name), NO_LEG);
            }
        }
    }
    let sheet = short_sheet(VERSION_2, &[Leg::plain(&[b'a'; 4096]).body()]);
    assert_eq!(reach(&sheet, &[b'a'; 4096]), reached([0; 3], [0; 3], 1));
    assert_eq!(reach(&sheet, &[b'a'; 4097]), NO_LEG);
}

/// Each bound from either end, at both ends of i32; stations do not count.
#[test]
fn bounds_from_either_end() {
    let ends = [i32::MIN, i32::MIN + 1, -1, 0, 1, i32::MAX - 1, i32::MAX];
    for one in ends {
        for other in ends {
            let (from, to) = ([one, other, 7], [other, 7, one]);
            let far = station(0, [i32::MIN, i32::MAX, 0], b"a");
            let leg = Leg { from, to, ..Leg::plain(b"a") }.body();
            let sheet = short_sheet(VERSION_2, &[far, leg]);
            let least = [one.min(other), other.min(7), one.min(7)];
            let greatest = [one.max(other), other.max(7), one.max(7)];
            assert_eq!(reach(&sheet, b"a"), reached(least, greatest, 1));
        }
    }
}

/// 12 anywhere before 21, with its place as for writing.
#[test]
fn a_broken_sheet_before_no_leg() {
    let twelve = |place| Reach::Refused { number: 12, place };
    let leg = Leg::plain(b"a").body();
    for version in [VERSION_1, VERSION_2] {
        for name in [&b"a"[..], b"b", b""] {
            let sheet = short_sheet(version, &[leg.clone(), leg.clone(), vec![9]]);
            assert_eq!(reach(&sheet, name), twelve(2));
            let bad = sheet_of(version, &[header(2, b"A", b"@0"), leg.clone()]);
            assert_eq!(reach(&bad, name), twelve(0));
        }
        assert_eq!(reach(&short_sheet(version, &[]), b""), NO_LEG);
    }
    assert_eq!(reach(&[], b""), twelve(0));
    assert_eq!(reach(&short_sheet(3, &[leg]), b"a"), twelve(0));
}

/// A bound, a count or a place that is off by one is found.
#[test]
fn wrong_answers_are_found() {
    let sheet = sheets::tour();
    let told = second::reach(&sheet, b"a");
    let Reach::Reached { least, greatest, legs } = told else { panic!("{told:?}") };
    let lies = [
        reached(least, greatest, legs + 1),
        reached(greatest, least, legs),
        reached([least[0], least[1], least[2] + 1], greatest, legs),
        NO_LEG,
    ];
    for lie in lies {
        compare::reach_by(lie, told).expect_err("a lie went unnoticed");
    }
}

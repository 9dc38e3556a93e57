//! Which is later: every day, every limit, one second apart, and headers that
//! are wrong.

use compare::{disagree, files_wanted, hex, seed};
use generate::{heads, times, Rng};
use second::Later;

/// Compares two files, in both orders and each with itself.
fn both_ways<'a>(one: &'a [u8], other: &'a [u8]) -> (Later, &'a [u8]) {
    let answer = once(one, other);
    once(other, one);
    once(one, one);
    answer
}

fn once<'a>(one: &'a [u8], other: &'a [u8]) -> (Later, &'a [u8]) {
    compare::later(one, other).unwrap_or_else(|difference| {
        disagree(&format!("a comparison with {}", hex(other)), one, &difference)
    })
}

/// The version to try next, 3 to 8 in turn.
fn version(number: usize) -> u8 {
    3 + (number % 6) as u8
}

/// The text form of every day is the same as its seconds, in either zone.
#[test]
fn every_day_is_its_seconds() {
    let mut count = 0;
    for (number, year, month, day) in times::days() {
        let seconds = number * 86400 + number % 86400;
        let moment = times::moment(seconds);
        assert_eq!((moment.year, moment.month, moment.day), (year, month, day));
        let zone = times::ZONES[count / 7 % 2];
        let text = times::file(version(count), &moment.text("Day", zone));
        let plain = times::file(version(count / 6), format!("@{seconds}").as_bytes());
        assert_eq!(both_ways(&text, &plain), (Later::Same, &[][..]));
        count += 1;
    }
    assert_eq!(count, 47_482);
}

/// One second apart, across every end, in each pair of forms.
#[test]
fn one_second_apart() {
    for (number, before) in times::ends().enumerate() {
        let forms = |seconds: u64| {
            let zone = times::ZONES[number / 4 % 2];
            [times::moment(seconds).text("xxx", zone), format!("@{seconds}").into_bytes()]
        };
        // The very last second has no text after it.
        let last = before == 47_482 * 86400 - 1;
        let early = times::file(version(number), &forms(before)[number % 2]);
        let line = if last {
            format!("@{}", before + 1).into_bytes()
        } else {
            forms(before + 1)[number / 2 % 2].clone()
        };
        let late = times::file(version(number / 6), &line);
        assert_eq!(both_ways(&early, &late), (Later::Second, &line[..]));
        assert_eq!(once(&late, &early), (Later::First, &line[..]));
    }
}

/// Every field at and past its limits, and every line that is nearly right.
#[test]
fn lines_at_their_limits() {
    let lines = [times::fields(), times::spoiled(), times::numbers()].concat();
    let middle = times::file(8, b"@1016373667");
    let mut seen = [0; 4];
    for (number, line) in lines.iter().enumerate() {
        let file = times::file(version(number), line);
        let kind = match both_ways(&file, &middle).0 {
            Later::First => 0,
            Later::Second => 1,
            Later::Same => 2,
            Later::Refused { .. } => 3,
        };
        seen[kind] += 1;
    }
    println!("lines: {}; first, second, same, refused: {seen:?}", lines.len());
    assert!(seen.iter().all(|&count| count > 0));
}

/// Any zone but `GMT` and `UTC` gives 17 at the line, and one that makes the
/// line too long, or ends it in a carriage return, the header's 3 before it.
#[test]
fn only_two_zones() {
    let plain = times::file(8, format!("@{}", times::NOON_SECONDS).as_bytes());
    let (mut readable, mut header, mut line) = (0, 0, 0);
    for (count, zone) in times::zones().iter().enumerate() {
        let file = times::file(version(count), &times::in_zone(zone));
        // A linefeed ends the line.
        let zone = zone.split(|&byte| byte == b'\n').next().unwrap();
        let (number, seen) = if zone == b"GMT" || zone == b"UTC" {
            (None, &mut readable)
        } else if zone.len() > 40 || zone.ends_with(b"\r") {
            (Some(3), &mut header)
        } else {
            (Some(17), &mut line)
        };
        let refused = |number| Later::Refused { file: 1, number, place: 26 };
        assert_eq!(both_ways(&file, &plain).0, number.map_or(Later::Same, refused), "{zone:?}");
        *seen += 1;
    }
    println!("zones: {readable} readable, {header} refused with 3 and {line} with 17");
    assert!(readable > 0 && header > 0 && line > 0);
}

/// Seeded pairs of readable lines, now and then with a damaged one.
#[test]
fn seeded_pairs() {
    let mut rng = Rng::new(seed(), 17);
    for _ in 0..files_wanted() / 4 {
        let ((one, first), (other, second)) =
            (times::readable(&mut rng), times::readable(&mut rng));
        let files = [one, other].map(|line| times::file(version(rng.below(6)), &line));
        let expected = match first.cmp(&second) {
            std::cmp::Ordering::Less => Later::Second,
            std::cmp::Ordering::Equal => Later::Same,
            std::cmp::Ordering::Greater => Later::First,
        };
        assert_eq!(once(&files[0], &files[1]).0, expected);
        let mut bad = files[0].clone();
        generate::damage::flip(&mut rng, &mut bad);
        both_ways(&bad, &files[1]);
        both_ways(&bad[..rng.below(bad.len())], &files[1]);
    }
}

/// Wrong headers first, second, and on both sides.
#[test]
fn headers_are_judged_alike() {
    let good = times::file(7, b"@5");
    let mut before = good.clone();
    for head in heads::all() {
        both_ways(&head, &good);
        both_ways(&head, &before);
        before = head;
    }
}

/// Nothing after the header is judged.
#[test]
fn items_are_not_judged() {
    for version in 3..=8 {
        let good = times::file(version, b"@5");
        let noisy = [&good[..], b"\xff\xff\xff\0\0"].concat();
        assert_eq!(both_ways(&noisy, &good), (Later::Same, &[][..]));
    }
}

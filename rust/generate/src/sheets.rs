//! All sheets of a run: first the fixed ones, then rounds from the seed.

use crate::record::*;
use crate::rng::Rng;
use crate::{damage, sheet_edges};

/// What a sheet is, or what was done to it.
#[derive(Clone, Copy, PartialEq, Eq, PartialOrd, Ord, Debug)]
pub enum SheetKind {
    /// A good sheet, which must be written.
    Good,
    /// At the edge of a rule, good or refused.
    Edge,
    Cut,
    Changed,
    Inserted,
    Removed,
    /// A record's length changed, or a record cut or lengthened.
    Length,
    /// A header after the first.
    SecondHeader,
    /// Style 5 after another style.
    StyleLost,
    /// A wrong date: equal days, days in the wrong order, unused days not 0.
    Date,
    /// Any bytes.
    Noise,
    /// Damaged more than once.
    Mixed,
}

use SheetKind as Kind;

/// The fixed sheets, the same in every run.
pub fn fixed() -> impl Iterator<Item = (Kind, Vec<u8>)> {
    let tour = tour();
    let mut damaged = vec![(Kind::Good, tour.clone()), (Kind::Good, old_tour())];
    damaged.extend(damage::changes(&old_tour()).map(|new| (Kind::Changed, new)));
    damaged.extend(damage::cuts(&tour).map(|cut| (Kind::Cut, cut)));
    damaged.extend(damage::changes(&tour).map(|new| (Kind::Changed, new)));
    damaged.extend(damage::inserts(&tour).map(|new| (Kind::Inserted, new)));
    damaged.extend(damage::removals(&tour).map(|new| (Kind::Removed, new)));
    sheet_edges::all().map(|sheet| (Kind::Edge, sheet)).chain(damaged)
}

/// A sheet with every record kind and every kind of date.
pub fn tour() -> Vec<u8> {
    sheet(&tour_records())
}

/// The same in version 1.
pub fn old_tour() -> Vec<u8> {
    sheet_of(VERSION_1, &without_dates(&tour_records()))
}

fn tour_records() -> Vec<Body> {
    let leg = |style, date, label: &[u8]| Leg { style, date, ..Leg::plain(label) };
    let far = Leg { from: [1, 2, 3], to: [-1, -2, i32::MIN], ..leg(4, Date(2, 5, 900), b"a.c") };
    vec![
        header(1, b"A tour", b"@1016373667"),
        leg(5, UNDATED, b"").body(),
        station(0x7f, [1, -2, 3], b"a.b"),
        station(0x60, [1, -2, 3], b"a.b"),
        leg(1, Date(1, 65535, 0), b"a").body(),
        leg(2, Date(2, 0, 255), b"a").body(),
        far.body(),
        leg(0, UNDATED, b"a.c").body(),
        section(1, UNDATED, [-1, 0, 32767, -32768], b"p.1"),
        section(0, Date(1, 7, 0), [-1, 0, 32768, 9], b"p.1"),
        section(0, Date(2, 7, 262), [1, 2, 3, 4], b"p.1"),
        section(0, Date(2, 7, 263), [1, 2, 3, 4], b"p.2"),
        section(0, Date(2, 7, 263), [1, 2, 3, 5], b"p.3"),
        section(1, UNDATED, [5, 6, 7, 8], b"p.3"),
        error([1, 2, 3, 4, -5]),
        leg(3, Date(1, 0, 0), b"p.1").body(),
        section(1, Date(1, 0, 0), [5, 6, 7, 8], b"p"),
    ]
}

/// One round: a good sheet and what damage makes of it.
pub fn round(seed: u64, round: u64) -> Vec<(Kind, Vec<u8>)> {
    let mut rng = Rng::new(seed, round);
    let records = records_of(&mut rng);
    let good = with_head(&mut rng, &records);
    let mut sheets = vec![(Kind::Good, good.clone())];
    for _ in 0..7 {
        let records = records_of(&mut rng);
        sheets.push((Kind::Good, with_head(&mut rng, &records)));
    }
    if round.is_multiple_of(25) && good.len() < 600 {
        sheets.extend(damage::cuts(&good).map(|cut| (Kind::Cut, cut)));
    }
    for _ in 0..2 {
        sheets.push((Kind::Cut, good[..rng.below(good.len())].to_vec()));
        sheets.push((Kind::Changed, with(&good, |bytes| damage::flip(&mut rng, bytes))));
        sheets.push((Kind::Inserted, with(&good, |bytes| damage::insert(&mut rng, bytes))));
        sheets.push((Kind::Removed, with(&good, |bytes| damage::remove(&mut rng, bytes))));
        sheets.push((Kind::Mixed, with(&good, |bytes| mix(&mut rng, bytes))));
        sheets.push((Kind::Length, relengthened(&mut rng, &records)));
    }
    sheets.push((Kind::SecondHeader, put_in(&mut rng, &records, header(0, b"A", b"@0"))));
    sheets.push((Kind::StyleLost, style_lost(&mut rng, &records)));
    let date = bad_date(&mut rng);
    for wrong in [Leg { date, ..Leg::plain(b"a") }.body(), section(0, date, [1, 2, 3, 4], b"a")] {
        sheets.push((Kind::Date, put_in(&mut rng, &records, wrong)));
    }
    sheets.push((Kind::Noise, damage::noise(&mut rng, &with_short_header(&[]))));
    sheets
}

fn with(sheet: &[u8], damage: impl FnOnce(&mut Vec<u8>)) -> Vec<u8> {
    let mut bytes = sheet.to_vec();
    damage(&mut bytes);
    bytes
}

fn mix(rng: &mut Rng, bytes: &mut Vec<u8>) {
    for _ in 0..2 + rng.below(3) {
        match rng.below(5) {
            0 => damage::insert(rng, bytes),
            1 => damage::remove(rng, bytes),
            _ => damage::flip(rng, bytes),
        }
    }
}

fn with_head(rng: &mut Rng, records: &[Body]) -> Vec<u8> {
    let length = if rng.one_in(300) { 4096 } else { rng.below(5) };
    let title: Vec<u8> = (0..length).map(|_| rng.pick(b"ab \0\xff")).collect();
    let time = rng.pick(&[&b"@0"[..], b"", b"T", &[b'x'; 64]]);
    let head = header(rng.below(2) as u8, &title, time);
    if rng.one_in(3) {
        return sheet_of(VERSION_1, &[&[head], &without_dates(records)[..]].concat());
    }
    sheet(&[&[head], records].concat())
}

/// Good records, each label near the one before.
pub fn records_of(rng: &mut Rng) -> Vec<Body> {
    let (mut label, mut date, mut leg) = (Vec::new(), UNDATED, Leg::plain(b""));
    (0..rng.below(12))
        .map(|_| {
            if !rng.one_in(4) {
                label = label_near(rng, &label);
            }
            match rng.below(8) {
                0 => error(rng.numbers()),
                1 | 2 => {
                    if rng.one_in(3) {
                        date = good_date(rng);
                    }
                    section(rng.below(2) as u8, date, rng.sides(), &label)
                }
                3 | 4 => station(rng.below(128) as u8, rng.numbers(), &label),
                _ => {
                    leg = next_leg(rng, &Leg { date, ..leg.clone() }, &label);
                    date = leg.date;
                    leg.body()
                }
            }
        })
        .collect()
}

fn label_near(rng: &mut Rng, before: &[u8]) -> Vec<u8> {
    let keep = match rng.below(5) {
        0 => before.len(),
        1 => rng.below(before.len() + 1),
        _ => before.len().saturating_sub(rng.below(20)),
    };
    let add = match rng.below(100) {
        0 => 4096,
        1 | 2 => 250 + rng.below(8),
        3..=10 => 12 + rng.below(8),
        _ => rng.below(5),
    };
    [&before[..keep], &rng.name(add.min(4096 - keep))].concat()
}

/// A leg that may keep style, date and place of the record before.
fn next_leg(rng: &mut Rng, before: &Leg, label: &[u8]) -> Leg {
    let mut leg = Leg { flags: rng.below(8) as u8, label: label.to_vec(), ..before.clone() };
    if rng.one_in(3) {
        leg.style = rng.below(5) as u8;
    }
    if rng.one_in(2) {
        leg.date = good_date(rng);
    }
    leg.from = if rng.one_in(3) { rng.numbers() } else { before.to };
    leg.to = rng.numbers();
    leg
}

fn good_date(rng: &mut Rng) -> Date {
    let day = rng.pick(&[0, 1, 256, 25567, 65279, 65280, 65534, 65535]) as u16;
    let span = rng.pick(&[1, 2, 254, 255, 256, 257, 5000]);
    match (rng.below(4), day.checked_add(span)) {
        (0, _) => UNDATED,
        (2 | 3, Some(last)) => Date(2, day, last),
        _ => Date(1, day, 0),
    }
}

fn bad_date(rng: &mut Rng) -> Date {
    let day = rng.pick(&[0, 1, 256, 65535]);
    rng.pick(&[
        Date(2, day, day),
        Date(2, day.max(1), day.max(1) - 1),
        Date(0, 1, 0),
        Date(0, 0, 1),
        Date(0, 0, 256),
        Date(1, day, 1),
        Date(1, day, 256),
        Date(3, 0, 0),
        Date(255, day, 0),
    ])
}

/// One record more, anywhere.
fn put_in(rng: &mut Rng, records: &[Body], record: Body) -> Vec<u8> {
    let mut records = records.to_vec();
    records.insert(rng.below(records.len() + 1), record);
    with_short_header(&records)
}

/// Style 5 after another, now and then with a bad record after that.
fn style_lost(rng: &mut Rng, records: &[Body]) -> Vec<u8> {
    let mut records = records.to_vec();
    let place = rng.below(records.len() + 1);
    let said = Leg { style: rng.below(5) as u8, ..Leg::plain(b"a") };
    records.insert(place, said.body());
    let later = place + 1 + rng.below(records.len() - place);
    records.insert(later, Leg::plain(b"a").body());
    if rng.one_in(4) {
        records.push(vec![9]);
    }
    with_short_header(&records)
}

/// One record's body cut or lengthened, or only its length bytes changed.
fn relengthened(rng: &mut Rng, records: &[Body]) -> Vec<u8> {
    if records.is_empty() {
        return sheet(&[vec![0; rng.below(6)]]);
    }
    let place = rng.below(records.len());
    let mut records = records.to_vec();
    if rng.one_in(2) {
        let fixed = [0, 32, 14, 23, 21][usize::from(records[place][0])];
        let length = rng.pick(&[0, 1, 2, fixed - 1, fixed, fixed + 1, 4128, 4129, 4130]);
        records[place].resize(length, b'l');
        return with_short_header(&records);
    }
    let start = with_short_header(&records[..place]).len();
    let mut bytes = with_short_header(&records);
    let length = rng.pick(&[0, 1, 13, 14, 18, 21, 22, 23, 32, 255, 256, 4128, 4129, 65535_u16]);
    bytes[start..start + 2].copy_from_slice(&length.to_be_bytes());
    bytes
}

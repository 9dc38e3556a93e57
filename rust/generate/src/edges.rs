//! Files at the edges of each rule, good and refused.

use crate::coder::{Coder, Form, FORMS};

const ZERO: [i32; 3] = [0; 3];

pub fn all() -> impl Iterator<Item = Vec<u8>> {
    let each = (3..=8).flat_map(|version| {
        labels(version).chain(codes(version)).chain(sections(version)).chain(dates(version))
    });
    let old = (3..=7).flat_map(|version| drops(version).chain(dots(version)));
    each.chain(old).chain(changes_v8()).chain(styles()).chain(meetings())
}

const LABELS: [usize; 14] = [0, 1, 2, 14, 15, 16, 17, 253, 254, 255, 256, 4095, 4096, 4097];

fn text(length: usize) -> Vec<u8> {
    (0..length).map(|place| b"ab.c"[place % 4]).collect()
}

/// Every label length in every form and item kind, from the empty label and
/// from one already there.
fn labels(version: u8) -> impl Iterator<Item = Vec<u8>> {
    LABELS.into_iter().flat_map(move |length| {
        FORMS.into_iter().flat_map(move |form| {
            [0, 1, 254].into_iter().filter(move |&start| start <= length).flat_map(move |start| {
                (0..5).map(move |kind| labelled(version, (start, length), form, kind))
            })
        })
    })
}

fn labelled(version: u8, (start, length): (usize, usize), form: Form, kind: usize) -> Vec<u8> {
    let mut coder = Coder::short(version);
    let all = text(length);
    if kind != 4 {
        coder.move_to(ZERO);
    }
    if start > 0 {
        coder.station(0, (0, &all[..start], Form::Least), ZERO);
    }
    let change = (0, &all[start..], form);
    match kind {
        0 => coder.station(1, change, [1, 2, 3]),
        1 | 4 => coder.leg(1, change, [1, 2, 3]),
        2 => coder.section(1, change, [1, 2, 3, 4], true),
        _ => coder.section(0, change, [1, 2, 3, 4], false),
    };
    coder.close();
    coder.bytes.clone()
}

/// Every code first, and after a label and position; bytes enough or not.
fn codes(version: u8) -> impl Iterator<Item = Vec<u8>> {
    (0..=255).flat_map(move |code| {
        (0..12).map(move |way| {
            let mut coder = Coder::short(version);
            if way % 2 == 1 {
                coder.move_to(ZERO).station(0, (0, b"a.b.c.0123456789abcdef", Form::Least), ZERO);
            }
            let after: &[u8] = match way / 2 {
                0 => &[],
                1 => &[0],
                2 => &[0; 24],
                3 => &[1; 24],
                4 => &[0x10; 30],
                _ => &[0xff; 24],
            };
            coder.item(code, after).close();
            coder.bytes.clone()
        })
    })
}

const SIDES: [i32; 13] =
    [-1, 0, 1, -2, 32766, 32767, 32768, -32767, -32768, -32769, 65535, i32::MIN, i32::MAX];

/// Each of the four sides at each limit, in both widths.
fn sections(version: u8) -> impl Iterator<Item = Vec<u8>> {
    SIDES.into_iter().flat_map(move |side| {
        (0..10).map(move |way| {
            let mut sides = [7; 4];
            match way / 2 {
                4 => sides = [side; 4],
                place => sides[place] = side,
            }
            let mut coder = Coder::short(version);
            coder.section(1, (0, b"s", Form::Least), sides, way % 2 == 0).close();
            coder.bytes.clone()
        })
    })
}

const SECONDS: [u32; 12] = [
    0,
    1,
    86399,
    86400,
    86401,
    0x7fff_ffff,
    0x8000_0000,
    3453235199,
    3453235200,
    3453321599,
    3453321600,
    0xffff_ffff,
];
const DAYS: [u32; 10] = [0, 1, 2, 255, 256, 25567, 32768, 65279, 65534, 65535];

/// A date item alone, one of each form, then a leg that shows it.
fn dates(version: u8) -> impl Iterator<Item = Vec<u8>> {
    let dates: &[u32] = match version {
        3 => &[],
        4..=6 => &SECONDS,
        _ => &DAYS,
    };
    dates.iter().flat_map(move |&first| {
        let pairs = dates.iter().map(move |&last| (2, first, last));
        let spans = [0, 1, 2, 254, 255].into_iter().map(move |span| (1, first, span));
        let ways = pairs.chain(spans).chain([(0, first, 0), (3, first, 0)]);
        ways.map(move |(way, first, last)| dated(version, way, first, last))
    })
}

fn dated(version: u8, way: usize, first: u32, last: u32) -> Vec<u8> {
    let mut coder = Coder::short(version);
    coder.move_to(ZERO).leg(0, (0, b"", Form::Least), [1; 3]);
    match way {
        0 => coder.day(first),
        1 => coder.span(first, last as u8),
        2 => coder.two_days(first, last),
        _ => coder.day(first).leg(0, (0, b"", Form::Least), [2; 3]).undated(),
    };
    coder.leg(0, (0, b"", Form::Least), [3; 3]).close();
    coder.bytes.clone()
}

/// Labels of 0 to 18 bytes, and each of the codes 10 to 1f.
fn drops(version: u8) -> impl Iterator<Item = Vec<u8>> {
    (0..=18).flat_map(move |length| {
        (0x10..=0x1f).map(move |code| {
            let mut coder = Coder::short(version);
            coder.station(0, (0, &text(length), Form::Least), ZERO).item(code, &[]);
            coder.station(0, (0, b"", Form::Least), ZERO).close();
            coder.bytes.clone()
        })
    })
}

/// Labels of 15 to 23 bytes with dots in all ways around the place where 16
/// bytes are dropped; and labels of many dots for the higher codes.
fn dots(version: u8) -> impl Iterator<Item = Vec<u8>> {
    let around = (15..=23usize).flat_map(move |length| {
        (0..64).flat_map(move |mask: usize| {
            let mut label = vec![b'x'; length];
            for bit in (0..6).filter(|bit| mask >> bit & 1 == 1) {
                let place = (length + bit).wrapping_sub(16 + 4);
                if let Some(byte) = label.get_mut(place) {
                    *byte = b'.';
                }
            }
            (1..=4).map(move |code| dotted(version, &label, code))
        })
    });
    let many = (0..=16usize).flat_map(move |count| {
        (1..=0x0e).flat_map(move |code| {
            let label = ["a.".repeat(count).as_bytes(), &[b'y'; 16]].concat();
            let ended = ["..".repeat(count).as_bytes(), &[b'.'; 16]].concat();
            [dotted(version, &label, code), dotted(version, &ended, code)]
        })
    });
    around.chain(many)
}

fn dotted(version: u8, label: &[u8], code: u8) -> Vec<u8> {
    let mut coder = Coder::short(version);
    coder.station(0, (0, label, Form::Least), ZERO).item(code, &[]);
    coder.station(0, (0, b"z", Form::Least), ZERO);
    coder.item(0, &[]).item(0, &[]);
    coder.bytes.clone()
}

const SIZES: [usize; 12] = [0, 1, 14, 15, 16, 253, 254, 255, 256, 4095, 4096, 4097];

/// v8: D and A at every limit, in every form, from labels of D bytes, one
/// less, and 4,096; as station, leg and leg without a position.
fn changes_v8() -> impl Iterator<Item = Vec<u8>> {
    SIZES.into_iter().flat_map(|drop| {
        SIZES.into_iter().flat_map(move |add| {
            FORMS.into_iter().flat_map(move |form| {
                let starts = [drop.min(4096), drop.saturating_sub(1), 4096];
                starts.into_iter().enumerate().map(move |(way, start)| {
                    let kind = (drop + add + way) % 4;
                    changed_v8(start, (drop, add), form, kind)
                })
            })
        })
    })
}

fn changed_v8(start: usize, (drop, add): (usize, usize), form: Form, kind: usize) -> Vec<u8> {
    let mut coder = Coder::short(8);
    if kind < 3 {
        coder.move_to(ZERO);
    }
    coder.station(0, (0, &text(start), Form::Least), ZERO);
    let add = vec![b'n'; add];
    let change = (drop, &add[..], form);
    match kind {
        0 => coder.station(0x60, change, [1, 2, 3]),
        1 => coder.section(0, change, [1, 2, 3, 4], drop % 2 == 0),
        _ => coder.leg(4, change, [1, 2, 3]),
    };
    coder.close();
    coder.bytes.clone()
}

/// v8: every run of up to five styles, a leg after each or none, then 00s.
fn styles() -> impl Iterator<Item = Vec<u8>> {
    (0..=5u32).flat_map(|count| {
        (0..5usize.pow(count)).flat_map(move |run| (0..4).map(move |way| styled(run, count, way)))
    })
}

fn styled(mut run: usize, count: u32, way: usize) -> Vec<u8> {
    let mut coder = Coder::short(8);
    coder.move_to(ZERO);
    for _ in 0..count {
        coder.item((run % 5) as u8, &[]);
        if way % 2 == 1 {
            coder.leg_there(0, ZERO);
        }
        run /= 5;
    }
    coder.item(0, &[]);
    if way / 2 == 1 {
        coder.item(0, &[]);
    }
    coder.bytes.clone()
}

/// Items that break several rules at once, cut at every place: which refusal
/// comes first?
fn meetings() -> impl Iterator<Item = Vec<u8>> {
    let long = vec![b'm'; 4090];
    let mut files = Vec::new();
    for way in 0..4 {
        let mut v8 = Coder::short(8);
        let mut v7 = Coder::short(7);
        if way % 2 == 1 {
            v8.station(0, (0, &long, Form::Least), ZERO);
            v7.station(0, (0, &long, Form::Least), ZERO);
        }
        let start = (v8.bytes.len(), v7.bytes.len());
        // Too much dropped, too much appended, no position.
        let drop = if way / 2 == 1 { 4091 } else { 3 };
        v8.leg(0, (drop, &[b'n'; 20], Form::Longest), ZERO).span(65535, 1).close();
        v7.leg(0, (0, &[b'n'; 20], Form::Longest), ZERO).span(65535, 1).close();
        files.extend((start.0..=v8.bytes.len()).map(|end| v8.bytes[..end].to_vec()));
        files.extend((start.1..=v7.bytes.len()).map(|end| v7.bytes[..end].to_vec()));
    }
    files.into_iter()
}

//! Valid files: one of each version with every item kind, and as many as
//! wanted from a seed.

use crate::coder::{Coder, Form, Head, FORMS, LONGEST_LABEL};
use crate::rng::Rng;

/// A file of the version with every item kind and every form, labels short.
pub fn tour(version: u8) -> Coder {
    let mut coder =
        Coder::new(Head { version, title: b"A tour", time: b"@1016373667", byte: 0x80 });
    if version == 8 {
        tour_v8(&mut coder);
    } else {
        tour_v3_to_v7(&mut coder);
    }
    coder.close();
    coder
}

fn tour_v8(coder: &mut Coder) {
    coder.station(0x7f, (0, b"a.b", Form::Least), [1, -2, 3]);
    coder.style(1).move_to([7, 8, 9]).leg(5, (2, b".c", Form::Middle), [4, 5, 6]);
    coder.style(2).day(65535).leg_there(7, [1, 1, 1]);
    coder.style(3).span(300, 255).leg(0, (0, b"", Form::Longest), [i32::MIN, 0, i32::MAX]);
    coder.style(4).two_days(300, 700).leg(2, (3, b"", Form::Least), [0, 0, 0]);
    coder.style(0).undated().leg(1, (0, b"xyz", Form::Longest), [-1, -1, -1]);
    coder.section(1, (0, b".1", Form::Least), [-1, 0, 32767, -32768], true);
    coder.section(0, (1, b"2", Form::Least), [-1, 1, 32768, -32769], false);
    coder.error([1, 2, 3, 4, -5]);
}

fn tour_v3_to_v7(coder: &mut Coder) {
    let version = coder.version;
    coder.station(0x1f, (0, b"a.b.0123456789abcdef", Form::Least), [1, -2, 3]);
    coder.dots(2).move_to([7, 8, 9]).leg(5, (0, b"c", Form::Longest), [4, 5, 6]);
    coder.drop(1).leg(7, (0, b"", Form::Least), [i32::MIN, 0, i32::MAX]);
    match version {
        3 => {}
        4..=6 => {
            coder.day(86400).leg(2, (0, b"", Form::Least), [0, 0, 0]);
            coder.two_days(86399, 3453321599).leg(0, (0, b"d", Form::Least), [5, 5, 5]);
        }
        _ => {
            coder.day(65535).leg(2, (0, b"", Form::Least), [0, 0, 0]);
            coder.span(300, 255).leg(1, (0, b"d", Form::Least), [5, 5, 5]);
            coder.two_days(3, 5).leg(0, (0, b"", Form::Least), [6, 6, 6]);
            coder.undated().leg(0, (0, b"", Form::Least), [7, 7, 7]);
        }
    }
    if version >= 6 {
        coder.error([1, 2, 3, 4, -5]);
    }
    coder.empty();
    if version >= 5 {
        coder.section(1, (0, b"p.1", Form::Least), [-1, 0, 32767, -32768], true);
        coder.section(0, (0, b"2", Form::Longest), [-1, 1, 32768, -32769], false);
    }
}

/// A valid file from the seed: its header and up to 14 items, then the end.
pub fn valid(rng: &mut Rng, version: u8) -> Coder {
    let title = title(rng);
    let time = rng.pick(&[&b"@0"[..], b"T", b"", b"Sun,2002.03.17 14:01:07 GMT", b"@1016373667"]);
    let byte = rng.pick(&[0, 0x80]);
    let mut coder = Coder::new(Head { version, title: &title, time, byte });
    for _ in 0..rng.below(15) {
        if version == 8 {
            item_v8(rng, &mut coder);
        } else {
            item_v3_to_v7(rng, &mut coder);
        }
    }
    coder.close();
    coder
}

/// Mostly a few bytes; any but a linefeed, the last no carriage return.
fn title(rng: &mut Rng) -> Vec<u8> {
    let length = if rng.one_in(400) { 4090 + rng.below(7) } else { rng.below(6) };
    let mut title = rng.name(length);
    title.iter_mut().for_each(|byte| *byte = if *byte == b'\n' { b'\r' } else { *byte });
    while title.last() == Some(&b'\r') {
        title.pop();
    }
    title
}

/// Bytes to append, and their form, so that the label stays within 4,096.
fn append(rng: &mut Rng, kept: usize) -> (Vec<u8>, Form) {
    let length = match rng.below(200) {
        0 => LONGEST_LABEL,
        1..=3 => 251 + rng.below(8),
        4..=20 => 13 + rng.below(7),
        21..=60 => 0,
        _ => rng.below(6),
    };
    let room = LONGEST_LABEL - kept;
    let add = rng.name(length.min(room));
    (add, rng.pick(&FORMS))
}

/// How much of the label a v8 item drops.
fn dropped(rng: &mut Rng, label: usize) -> usize {
    match rng.below(6) {
        0 => label,
        1 => rng.below(label + 1),
        2 => label.min(13 + rng.below(6)),
        3 => 0,
        _ => label.min(rng.below(5)),
    }
}

fn item_v8(rng: &mut Rng, coder: &mut Coder) {
    let drop = dropped(rng, coder.label.len());
    let (add, form) = append(rng, coder.label.len() - drop);
    let change = (drop, &add[..], form);
    match rng.below(16) {
        0..=2 => coder.station(rng.below(128) as u8, change, rng.numbers()),
        3..=5 if coder.placed => coder.leg(rng.below(8) as u8, change, rng.numbers()),
        6 | 7 if coder.placed => coder.leg_there(rng.below(8) as u8, rng.numbers()),
        8 | 9 => section(rng, coder, change),
        10 => coder.error(rng.numbers()),
        11 | 12 => date_v7_v8(rng, coder),
        13 | 14 => {
            let style = rng.below(5) as u8;
            // A second 00 would be the end.
            coder.style(if style == coder.style && style == 0 { 1 } else { style })
        }
        _ => coder.move_to(rng.numbers()),
    };
}

fn section<'c>(rng: &mut Rng, coder: &'c mut Coder, change: (usize, &[u8], Form)) -> &'c mut Coder {
    let (last, narrow) = (rng.below(2) as u8, rng.one_in(2));
    coder.section(last, change, rng.sides(), narrow)
}

fn date_v7_v8<'c>(rng: &mut Rng, coder: &'c mut Coder) -> &'c mut Coder {
    let first = rng.below(65536);
    match rng.below(4) {
        0 => coder.undated(),
        1 => coder.day(first as u32),
        2 => coder.span(first as u32, rng.below(256.min(65536 - first)) as u8),
        _ => coder.two_days(first as u32, (first + rng.below(65536 - first)) as u32),
    }
}

fn date_v4_to_v6<'c>(rng: &mut Rng, coder: &'c mut Coder) -> &'c mut Coder {
    // 3453321600 is the first second past day 65535.
    let first = rng.below(3_453_321_600);
    if rng.one_in(2) {
        return coder.day(first as u32);
    }
    let last = first + rng.below(3_453_321_600 - first);
    // Within the first day, the last may be the earlier second.
    coder.two_days(first as u32, if rng.one_in(4) { first - first % 86400 } else { last } as u32)
}

fn item_v3_to_v7(rng: &mut Rng, coder: &mut Coder) {
    let (version, length) = (coder.version, coder.label.len());
    let (add, form) = append(rng, length);
    let change = (0, &add[..], form);
    match rng.below(16) {
        0..=2 => coder.station(rng.below(32) as u8, change, rng.numbers()),
        3..=6 if coder.placed => coder.leg(rng.below(8) as u8, change, rng.numbers()),
        7 | 8 if version >= 5 => section(rng, coder, change),
        9 if version >= 6 => coder.error(rng.numbers()),
        10 if version == 7 => date_v7_v8(rng, coder),
        10 if version >= 4 => date_v4_to_v6(rng, coder),
        11 if length > 0 => coder.empty(),
        12 if length > 1 => coder.drop(1 + rng.below(16.min(length - 1))),
        13 | 14 => {
            let dots = 1 + rng.below(4);
            coder.dots(dots)
        }
        _ => coder.move_to(rng.numbers()),
    };
}

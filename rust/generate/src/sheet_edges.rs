//! Sheets at the edges of each rule, good and refused.

use crate::record::*;

pub fn all() -> impl Iterator<Item = Vec<u8>> {
    headers()
        .chain(fields())
        .chain(versions())
        .chain(lengths())
        .chain(pairs())
        .chain(runs())
        .chain(dates())
}

/// Headers: extended, title and time line at and past their limits, title
/// lengths that lie, other kinds, no header and no version byte.
fn headers() -> impl Iterator<Item = Vec<u8>> {
    let mut sheets = vec![vec![], vec![0], vec![1], vec![2], vec![3], vec![2, 0], vec![2, 0, 0]];
    for extended in [0, 1, 2, 0x80, 255] {
        sheets.push(sheet(&[header(extended, b"A", b"@0")]));
    }
    for title in texts(4096) {
        for time in texts(64) {
            sheets.push(sheet(&[header(0, &title, &time)]));
        }
    }
    for length in [0, 1, 2, 3, 4, 255, 256, 65535_u16] {
        let [high, low] = length.to_be_bytes();
        sheets.push(sheet(&[vec![0, 0, high, low, b'A', b'@', b'0']]));
    }
    for kind in 0..=255 {
        sheets.push(sheet(&[vec![kind, 0, 0, 1, b'A', b'@', b'0']]));
        sheets.push([&[kind][..], &with_short_header(&[])[1..]].concat());
        sheets.push(with_short_header(&[vec![kind; 40]]));
    }
    sheets.push(sheet(&[station(0, [0; 3], b"a"), header(0, b"A", b"@0")]));
    sheets.into_iter()
}

/// Texts around a length limit, with carriage returns, linefeeds and zeros.
fn texts(longest: usize) -> Vec<Vec<u8>> {
    let short = [&b""[..], b"x", b"\r", b"\rx", b"x\r", b"\n", b"a\nb", b"ab\n", b"\0", b"\r\n"];
    let mut texts: Vec<_> = short.iter().map(|text| text.to_vec()).collect();
    for length in longest - 1..=longest + 1 {
        texts.push(vec![b't'; length]);
        texts.push([&vec![b't'; length - 1][..], b"\r"].concat());
        texts.push([&vec![b't'; length - 1][..], b"\n"].concat());
    }
    texts
}

/// Every one-byte field with every value; dates and sides at every limit.
fn fields() -> Vec<Vec<u8>> {
    let mut bodies = Vec::new();
    for value in 0..=255 {
        bodies.push(Leg { flags: value, ..Leg::plain(b"a") }.body());
        bodies.push(Leg { style: value, ..Leg::plain(b"a") }.body());
        bodies.push(station(value, [1, 2, 3], b"a"));
        bodies.push(section(value, UNDATED, [1, 2, 3, 4], b"a"));
        for (day, last) in [(0, 0), (1, 0), (0, 1), (1, 1)] {
            bodies.extend(dated(Date(value, day, last)));
        }
    }
    let days = [0, 1, 2, 254, 255, 256, 257, 32768, 65279, 65280, 65534, 65535];
    for (day, last) in days.iter().flat_map(|&day| days.map(|last| (day, last))) {
        bodies.extend(dated(Date(2, day, last)));
    }
    for side in [-1, 0, 32767, 32768, -32768, -32769, 65535, i32::MIN, i32::MAX] {
        for place in 0..4 {
            let mut sides = [7; 4];
            sides[place] = side;
            bodies.push(section(1, UNDATED, sides, b"a"));
        }
        bodies.push(section(0, UNDATED, [side; 4], b"a"));
    }
    bodies.into_iter().map(|body| with_short_header(&[body])).collect()
}

/// A leg and a section of the date.
fn dated(date: Date) -> [Body; 2] {
    [Leg { date, ..Leg::plain(b"a") }.body(), section(0, date, [1, 2, 3, 4], b"a")]
}

/// Sections of each version in a sheet of each version, with labels around the
/// date's five bytes, and lengths of labels and bodies in version 1.
fn versions() -> impl Iterator<Item = Vec<u8>> {
    let sides = [[0; 4], [1, 2, 3, 4], [-1; 4], [0x0100_0200, 0x0300_0400, 5, 6]];
    let sections = sides.into_iter().flat_map(|sides| {
        [0, 1, 4, 5, 6, 4091, 4092, 4096, 4097]
            .map(|length| vec![b'x'; length])
            .into_iter()
            .flat_map(move |label| {
                let new = section(1, UNDATED, sides, &label);
                let old = without_dates(std::slice::from_ref(&new)).remove(0);
                [new, old].into_iter().flat_map(|body| {
                    (0..4).map(move |version| short_sheet(version, std::slice::from_ref(&body)))
                })
            })
    });
    let last = (0..=255).map(|value| {
        short_sheet(VERSION_1, &without_dates(&[section(value, UNDATED, [1, 2, 3, 4], b"a")]))
    });
    let short = (0..18).map(|end| {
        let old = without_dates(&[section(0, UNDATED, [1, 2, 3, 4], b"")]).remove(0);
        short_sheet(VERSION_1, &[old[..end].to_vec()])
    });
    sections.chain(last).chain(short)
}

/// Each kind with each length of label, and bodies cut short.
fn lengths() -> impl Iterator<Item = Vec<u8>> {
    let lengths = [0, 1, 14, 15, 16, 253, 254, 255, 256, 4094, 4095, 4096, 4097, 4098];
    let labels = lengths.into_iter().flat_map(|length| {
        (0..3).map(move |kind| with_short_header(&[named(kind, &vec![b'x'; length])]))
    });
    let short = (0..3).flat_map(|kind| {
        let body = named(kind, b"");
        (0..body.len()).map(move |end| with_short_header(&[body[..end].to_vec()]))
    });
    let errors = (0..=23).map(|length| {
        let mut body = error([1, 2, 3, 4, 5]);
        body.resize(length, 4);
        with_short_header(&[body])
    });
    labels.chain(short).chain(errors)
}

fn named(kind: usize, label: &[u8]) -> Body {
    match kind {
        0 => Leg { style: 0, ..Leg::plain(label) }.body(),
        1 => station(0, [1, 2, 3], label),
        _ => section(0, UNDATED, [1, 2, 3, 4], label),
    }
}

const SIZES: [usize; 13] = [0, 1, 2, 14, 15, 16, 17, 253, 254, 255, 256, 257, 4096];

/// Two records whose labels share a start: every D and A, the second of each
/// kind.
fn pairs() -> impl Iterator<Item = Vec<u8>> {
    SIZES.into_iter().flat_map(|drop| {
        SIZES.into_iter().flat_map(move |add| {
            [0, 1, 7, 8, 9, 3839, 4095, 4096].into_iter().flat_map(move |keep| {
                let fits = keep + drop <= 4096 && keep + add <= 4096;
                (0..3).filter(move |_| fits).map(move |kind| pair(kind, keep, drop, add))
            })
        })
    })
}

fn pair(kind: usize, keep: usize, drop: usize, add: usize) -> Vec<u8> {
    let before = [vec![b'k'; keep], vec![b'd'; drop]].concat();
    let after = [vec![b'k'; keep], vec![b'a'; add]].concat();
    with_short_header(&[named((keep + drop) % 3, &before), named(kind, &after)])
}

/// Every run of four legs in two of six styles, two dates and two places.
fn runs() -> impl Iterator<Item = Vec<u8>> {
    (0..6 * 6 * 6).flat_map(|styles: usize| {
        (0..64).map(move |ways: usize| {
            let legs: Vec<_> = (0..3)
                .map(|place| {
                    let style = (styles / 6usize.pow(place) % 6) as u8;
                    let far = ways >> (2 * place);
                    let date = if far & 1 == 1 { Date(1, 9, 0) } else { UNDATED };
                    let from = if far & 2 == 2 { [0, 0, 1] } else { [0; 3] };
                    Leg { style, date, from, ..Leg::plain(b"") }.body()
                })
                .collect();
            with_short_header(&legs)
        })
    })
}

/// Every run of four records, each a leg or a section of one of three dates,
/// in both versions.
fn dates() -> impl Iterator<Item = Vec<u8>> {
    const DATES: [Date; 3] = [UNDATED, Date(1, 9, 0), Date(2, 9, 265)];
    (0..6usize.pow(4)).flat_map(|ways| {
        let records: Vec<_> = (0..4)
            .map(|place| {
                let way = ways / 6usize.pow(place) % 6;
                dated(DATES[way / 2])[way % 2].clone()
            })
            .collect();
        [with_short_header(&records), short_sheet(VERSION_1, &without_dates(&records))]
    })
}

//! Every refusal number and place, the orders between them, and what the
//! writer writes.

mod common;

use common::*;
use second::*;

#[test]
fn no_1_and_2() {
    assert_eq!(read_all(b""), Err((1, 0)));
    assert_eq!(read_all(b"Survex 3D Image File"), Err((1, 0)));
    assert_eq!(read_all(b"Survex 3D Image File\r\nv8\n"), Err((1, 0)));
    for rest in ["", "v", "v8", "v8\r\n", "v2\nA\nT\n", "v9\nA\nT\n", "V3\nA\nT\n", "v10\n"] {
        let file = format!("Survex 3D Image File\n{rest}");
        assert_eq!(read_all(file.as_bytes()), Err((2, 21)), "{rest:?}");
    }
}

#[test]
fn no_3_lines() {
    let id = b"Survex 3D Image File\nv8\n".to_vec();
    let all = |text: &[u8]| read_all(&[&id[..], text].concat());
    let long = [b'x'; 4097];
    assert_eq!(all(b""), Err((3, 24)));
    assert_eq!(all(b"A"), Err((3, 24)));
    assert_eq!(all(b"A\r\n@0\n\0\0\0"), Err((3, 24)));
    assert_eq!(all(b"\r\n@0\n\0\0\0"), Err((3, 24)));
    assert_eq!(all(&[&long[..], b"\n@0\n\0\0\0"].concat()), Err((3, 24)));
    assert_eq!(all(b"A\n"), Err((3, 26)));
    assert_eq!(all(b"A\n@0"), Err((3, 26)));
    assert_eq!(all(b"A\n@0\r\n\0\0\0"), Err((3, 26)));
    assert_eq!(all(&[b"A\n", &long[..65], b"\n\0\0\0"].concat()), Err((3, 26)));
    assert_eq!(all(b"A\n@0\n"), Err((3, 29)));
    assert_eq!(all(b"\n\n"), Err((3, 26)));
    assert_eq!(all(b"\n\n\0\0\0").map(|read| read.0), Ok(vec![2, 0, 4, 0, 0, 0, 0]));
    // A title may hold zero bytes and carriage returns not at its end.
    let kept = all(b"\0\rA\n\rT\n\0\0\0").map(|read| read.0);
    assert_eq!(kept, Ok(vec![2, 0, 9, 0, 0, 0, 3, 0, 13, b'A', 13, b'T']));
    let longest = all(&[&long[..4096], b"\n", &long[..64], b"\n\x80\0\0"].concat()).unwrap();
    assert_eq!(longest.0.len(), 1 + 4166);
    assert_eq!(longest.0[4], 1);
    assert_eq!(
        write_all(&longest.0),
        Ok([&id[..], &long[..4096], b"\n", &long[..64], b"\n\x80\0\0"].concat())
    );
}

#[test]
fn no_4_v8_byte_and_codes() {
    let mut file = v8(&[0, 0]);
    for byte in 1..=255u8 {
        file[29] = byte;
        let expected = if byte == 0x80 { None } else { Some((4, 29)) };
        assert_eq!(read_all(&file).err(), expected);
    }
}

/// Which codes are known, straight from the two tables of document 01.
fn known(version: u8, code: u8) -> bool {
    if version == 8 {
        return matches!(code, 0x00..=0x04 | 0x0f..=0x13 | 0x1f | 0x30..=0x33 | 0x80..=0xff)
            || (0x40..=0x7f).contains(&code) && code & !0x67 == 0;
    }
    match code {
        0x00..=0x1f => true,
        0x20 | 0x21 => version >= 4,
        0x22 => version >= 6,
        0x23 | 0x24 => version == 7,
        0x30..=0x33 => version >= 5,
        0x40..=0x7f => (code - 0x40) & !0x1f == 0,
        0x80..=0xbf => (code - 0x80) & !0x07 == 0,
        _ => false,
    }
}

#[test]
fn no_4_and_5_for_every_code() {
    for version in 3..=8 {
        let start = if version == 8 { 30 } else { 28 };
        let time: &[u8] = if version == 8 { b"@0" } else { b"T" };
        for code in 0..=255u8 {
            let answer = read_all(&file(version, b"A", time, &[code])).err();
            let alone = match (version, code) {
                (_, _) if !known(version, code) => Some((4, start)),
                (3..=7, 0x00) => None,
                // These two kinds are whole but find the label empty.
                (3..=7, 0x01..=0x0e | 0x10..=0x1f) => Some((6, start)),
                (7, 0x24) | (8, 0x00..=0x04 | 0x10) => Some((5, start + 1)),
                _ => Some((5, start)),
            };
            assert_eq!(answer, alone, "v{version} {code:02x}");
        }
    }
}

/// One whole item of each kind, for cutting.
fn whole_items_v7() -> Vec<Vec<u8>> {
    let long = vec![b'x'; 300];
    vec![
        [&[0x20][..], &[0; 2]].concat(),
        [&[0x21][..], &[0; 3]].concat(),
        [&[0x22][..], &[0; 20]].concat(),
        [&[0x23][..], &[0; 4]].concat(),
        [&[0x31, 2, b'a', b'b'][..], &[0; 8]].concat(),
        [&[0x33, 0xfe, 1, 0], &long[..255], &[0; 16]].concat(),
        [&[0x41, 0xff, 44, 1, 0, 0], &long[..], &[0; 12]].concat(),
        [&[0x87, 0][..], &[0; 12]].concat(),
        [&[0x0f][..], &[0; 12]].concat(),
    ]
}

fn whole_items_v8() -> Vec<Vec<u8>> {
    let long = vec![b'x'; 300];
    vec![
        [&[0x11][..], &[0; 2]].concat(),
        [&[0x12][..], &[0; 3]].concat(),
        [&[0x13][..], &[0; 4]].concat(),
        [&[0x1f][..], &[0; 20]].concat(),
        [&[0x30, 0x02, b'a', b'b'][..], &[0; 8]].concat(),
        [&[0x32, 0x00, 0x01, 0x01, b'b'][..], &[0; 16]].concat(),
        [&[0x80, 0x00, 0xff, 1, 0, 0, 0, 0xff, 44, 1, 0, 0], &long[..], &[0; 12]].concat(),
        [&[0x67][..], &[0; 12]].concat(),
        [&[0x0f][..], &[0; 12]].concat(),
    ]
}

#[test]
fn no_5_at_every_cut() {
    let moved = [&[0x0f][..], &[0; 12]].concat();
    for (version, start, items) in [(7, 28, whole_items_v7()), (8, 30, whole_items_v8())] {
        let time: &[u8] = if version == 8 { b"@0" } else { b"T" };
        let mut before = moved.clone();
        for item in items {
            let place = start + before.len();
            for cut in 1..item.len() {
                let cut_short = [&before[..], &item[..cut]].concat();
                assert_eq!(read_all(&file(version, b"A", time, &cut_short)), Err((5, place)));
            }
            before.extend(item);
            let no_end = read_all(&file(version, b"A", time, &before));
            assert_eq!(no_end, Err((5, start + before.len())));
        }
    }
}

#[test]
fn no_5_for_huge_labels() {
    let rest = [0; 40];
    for code in [0x30, 0x32, 0x40, 0x80] {
        let items = [&[code, 0xff, 0xff, 0xff, 0xff, 0xff], &rest[..]].concat();
        assert_eq!(read_all(&old(7, &items)), Err((5, 28)));
        let items = [&[code, 0xfe, 0xff, 0xff], &rest[..]].concat();
        assert_eq!(read_all(&old(7, &items)), Err((5, 28)));
        let items = [&[code, 0, 0, 0xff, 0xff, 0xff, 0xff, 0xff], &rest[..]].concat();
        assert_eq!(read_all(&v8(&items)), Err((5, 30)));
        let items = [&[code, 0, 0xff, 0xff, 0xff, 0xff, 0xff, 0], &rest[..]].concat();
        assert_eq!(read_all(&v8(&items)), Err((6, 30)));
    }
}

#[test]
fn lengths_in_other_forms_are_taken() {
    // "We take any ff value", and v8 takes long forms of short numbers.
    let items = [&[0x40, 0xff, 1, 0, 0, 0, b'x'][..], &[0; 12], &[0, 0]].concat();
    assert_eq!(read_all(&old(3, &items)).unwrap().0[9..], station(b"x").bytes());
    let items = [&[0x80, 0, 0xff, 0, 0, 0, 0, 0xff, 1, 0, 0, 0, b'x'][..], &[0; 14]].concat();
    assert_eq!(read_all(&v8(&items)).unwrap().0, sheet(&[station(b"x")]));
    let name = vec![b'y'; 254];
    let items = [&[0x40, 0xfe, 0, 0], &name[..], &[0; 14]].concat();
    assert_eq!(read_all(&old(3, &items)).unwrap().0[9..], station(&name).bytes());
}

#[test]
fn no_6_in_v8_allows_the_whole_label() {
    let start = [&[0x80, 0x02, b'a', b'b'][..], &[0; 12]].concat();
    let whole = [&start[..], &[0x80, 0x20], &[0; 14]].concat();
    assert_eq!(read_all(&v8(&whole)).unwrap().0, sheet(&[station(b"ab"), station(b"")]));
    let more = [&start[..], &[0x80, 0x30], &[0; 14]].concat();
    assert_eq!(read_all(&v8(&more)), Err((6, 30 + start.len())));
}

#[test]
fn drops_of_one_to_sixteen() {
    let name = b"0123456789abcdefghij";
    for code in 0x10..=0x1f {
        let items =
            [&[0x40, 20], &name[..], &[0; 12], &[code], &[0x40, 0], &[0; 12], &[0, 0]].concat();
        let left = &name[..20 - (usize::from(code) - 15)];
        let expected = [station(name).bytes(), station(left).bytes()].concat();
        assert_eq!(read_all(&old(4, &items)).unwrap().0[9..], expected);
    }
}

#[test]
fn no_8_and_the_position() {
    let line = [&[0x80, 0x00][..], &[1; 12]].concat();
    assert_eq!(read_all(&old(3, &line)), Err((8, 28)));
    // A station sets no position.
    let items = [&[0x40, 0x00], &[0; 12][..], &line].concat();
    assert_eq!(read_all(&old(3, &items)), Err((8, 42)));
}

#[test]
fn no_9_in_v8() {
    assert_eq!(read_all(&v8(&[0x12, 0xff, 0xff, 0x01])), Err((9, 30)));
    assert_eq!(read_all(&v8(&[0x13, 1, 0, 0, 0])), Err((9, 30)));
    assert!(read_all(&v8(&[0x12, 0xff, 0xff, 0x00, 0x13, 1, 0, 1, 0, 0, 0])).is_ok());
}

#[test]
fn no_10_before_11() {
    assert_eq!(read(&v8(&[0, 0, 9]), &mut []), refused(10, 32));
    assert_eq!(read(&v8(&[0, 0]), &mut []), refused(11, 10));
    // 00 empties the label first; only the second is the end.
    let items = [&[0x40, 1, b'x'][..], &[0; 14]].concat();
    assert!(read_all(&old(3, &items)).is_ok());
    assert_eq!(read_all(&old(3, &items[..items.len() - 1])), Err((5, 28 + items.len() - 1)));
}

#[test]
fn no_16_reading() {
    let mut large = vec![0; 16_777_217];
    assert_eq!(read(&large, &mut []), refused(16, 0));
    assert_eq!(open(&large).1, Opened::Refused { number: 16, place: 0 });
    assert_eq!(edit(&large, 0, 0, &[], &mut []), refused(16, 0));
    let small = v8(&[0, 0]);
    let late = Later::Refused { file: 2, number: 16, place: 0 };
    assert_eq!(compare(&small, &large), (late, &[][..]));
    large.pop();
    assert_eq!(read(&large, &mut []), refused(1, 0));
}

#[test]
fn no_12_version_byte_and_header() {
    let good = sheet_with(1, b"A", b"@0", &[]);
    assert!(write_all(&good).is_ok());
    for bad in [&good[..0], &good[..1], &good[..2], &good[..good.len() - 1]] {
        assert_eq!(write_all(bad), Err((12, 0)));
    }
    // Version, kind, extended, and a title longer than the record.
    for (place, byte) in [(0, 0), (0, 3), (0, 255), (3, 1), (3, 5), (4, 2), (5, 1), (6, 4)] {
        let mut bad = good.clone();
        bad[place] = byte;
        assert_eq!(write_all(&bad), Err((12, 0)), "{place}");
    }
    let long = [b'x'; 4097];
    for (title, time) in [(&long[..], &b""[..]), (b"", &long[..65]), (b"a\r", b""), (b"", b"a\r")] {
        assert_eq!(write_all(&sheet_with(0, title, time, &[])), Err((12, 0)));
    }
    assert_eq!(write_all(&sheet_with(0, b"a\nb", b"", &[])), Err((12, 0)));
    assert_eq!(write_all(&sheet_with(0, b"", b"\n", &[])), Err((12, 0)));
    assert!(write_all(&sheet_with(0, &long[..4096], &long[..64], &[])).is_ok());
    assert!(write_all(&sheet_with(0, b"\ra", b"\ra", &[])).is_ok());
    for version in [1, 2] {
        assert_eq!(write_all(&[&[version][..], &framed(&[0, 0, 0])].concat()), Err((12, 0)));
        assert!(write_all(&[&[version][..], &framed(&[0, 0, 0, 0])].concat()).is_ok());
    }
}

/// The record's bytes with one of them changed.
fn set(record: &Rec, place: usize, byte: u8) -> Vec<u8> {
    let mut bytes = record.bytes();
    bytes[place] = byte;
    bytes
}

fn bad_sections() -> Vec<Vec<u8>> {
    let good = section([0; 4], b"");
    let dated = |date| dated_section(date, b"");
    vec![
        set(&good, 3, 2),
        set(&good, 4, 3),
        set(&good, 4, 255),
        set(&good, 5, 1),
        set(&good, 6, 1),
        set(&good, 8, 1),
        set(&dated(Date::Day(7)), 7, 1),
        set(&dated(Date::Day(7)), 8, 1),
        dated(Date::Range(0, 0)).bytes(),
        dated(Date::Range(5, 5)).bytes(),
        dated(Date::Range(6, 5)).bytes(),
        dated(Date::Range(256, 255)).bytes(),
        framed(&good.bytes()[2..24]),
        section([0; 4], &[b'x'; 4097]).bytes(),
    ]
}

fn bad_records() -> Vec<Vec<u8>> {
    let good_leg = leg(0, Date::None, [0; 3], [1; 3], b"");
    let dated = |date| leg(0, date, [0; 3], [1; 3], b"");
    let long = vec![b'x'; 4097];
    vec![
        vec![0],
        vec![0, 0],
        vec![0, 1, 5],
        vec![0, 2, 4],
        framed(&[0, 0, 0, 0]),
        set(&good_leg, 3, 8),
        set(&good_leg, 4, 6),
        set(&good_leg, 5, 3),
        set(&good_leg, 7, 1),
        set(&good_leg, 9, 1),
        set(&dated(Date::Day(7)), 9, 1),
        dated(Date::Range(5, 5)).bytes(),
        dated(Date::Range(6, 5)).bytes(),
        framed(&good_leg.bytes()[2..33]),
        set(&station(b""), 3, 0x80),
        framed(&station(b"").bytes()[2..15]),
        framed(&Rec::Error([0; 5]).bytes()[2..22]),
        framed(&[&Rec::Error([0; 5]).bytes()[2..], &[0]].concat()),
        leg(0, Date::None, [0; 3], [1; 3], &long).bytes(),
        station(&long).bytes(),
    ]
}

#[test]
fn no_12_records() {
    let before = [station(b"a"), Rec::Error([1; 5])];
    let old_file = write_all(&sheet(&before)).unwrap();
    for bad in [bad_records(), bad_sections()].concat() {
        let sheet_of = |after: &[u8]| [&sheet(&before)[..], &bad, after].concat();
        assert_eq!(write_all(&sheet_of(&[])), Err((12, 2)), "{bad:?}");
        let replacement = [&station(b"c").bytes()[..], &bad].concat();
        assert_eq!(edit(&old_file, 0, 1, &replacement, &mut []), refused(12, 1));
        assert_eq!(edit(&old_file, 0, 1, &bad, &mut []), refused(12, 0));
    }
    // A day of 0 is a day like any other.
    assert!(write_all(&sheet(&[leg(0, Date::Day(0), [0; 3], [1; 3], b"")])).is_ok());
    assert!(write_all(&sheet(&[dated_section(Date::Day(0), b"")])).is_ok());
    let long = vec![0; 4096];
    let longest =
        [leg(0, Date::None, [0; 3], [1; 3], &long), station(&long), section([0; 4], &long)];
    assert!(write_all(&sheet(&longest)).is_ok());
}

#[test]
fn no_13_after_12_and_before_16_and_11() {
    let plain = |style| leg(style, Date::None, [0; 3], [1; 3], b"");
    assert!(write_all(&sheet(&[plain(5), plain(5), plain(0)])).is_ok());
    let bad = sheet(&[plain(5), station(b""), plain(4), station(b""), plain(5), plain(5)]);
    assert_eq!(write_all(&bad), Err((13, 4)));
    assert_eq!(write_all(&[&bad[..], &[0]].concat()), Err((12, 6)));
}

/// A sheet whose file is exactly `title` + 16,777,202 bytes.
fn large_sheet(title: usize) -> Vec<u8> {
    let mut large = sheet_with(0, &vec![b'x'; title], b"", &[]);
    let error = Rec::Error([0; 5]).bytes();
    for _ in 0..798_913 {
        large.extend_from_slice(&error);
    }
    large
}

#[test]
fn no_16_writing() {
    let longest = large_sheet(14);
    let mut file = vec![FILLER; 16_777_216];
    assert_eq!(write(&longest, &mut file[..16_777_215]), refused(11, 16_777_216));
    let done = Answer::Done { bytes: 16_777_216, records: 798_913, version: 8 };
    assert_eq!(write(&longest, &mut file), done);
    let mut again = vec![FILLER; longest.len()];
    let done = Answer::Done { bytes: longest.len(), records: 798_913, version: 8 };
    assert_eq!(read(&file, &mut again), done);
    assert!(again == longest);
    assert_eq!(write(&large_sheet(15), &mut []), refused(16, 0));
    // An edit that would grow the file is refused, one that doesn't is not.
    let more = station(b"a").bytes();
    assert_eq!(edit(&file, 5, 0, &more, &mut []), refused(16, 0));
    assert_eq!(edit(&file, 798_914, 0, &more, &mut []), refused(15, 798_913));
    assert_eq!(edit(&file, 5, 1, &more, &mut []), refused(11, 16_777_216 - 21 + 15));
    let unsaid = [leg(0, Date::None, [0; 3], [1; 3], b""), leg(5, Date::None, [0; 3], [1; 3], b"")];
    assert_eq!(edit(&file, 5, 0, &joined(&unsaid), &mut []), refused(13, 6));
}

#[test]
fn written_codes() {
    let (a, b, c) = ([1, 2, 3], [4, 5, 6], [7, -8, 9]);
    let records = [
        leg(5, Date::None, a, b, b""),
        leg(1, Date::Day(0x1234), b, c, b"cave.upper"),
        leg(1, Date::Day(0x1234), c, c, b"cave.upper"),
        leg(0, Date::Range(1, 256), a, b, b"cave.low"),
        station(b"cave.low"),
        station(b"cave.low.1"),
        Rec::Section {
            last: 1,
            date: Date::Range(1, 256),
            sides: [-1, 2, 3, 4],
            label: b"cave.low.1".to_vec(),
        },
        leg(0, Date::Range(1, 257), b, a, b""),
        Rec::Station { flags: 0x7f, at: a, label: vec![] },
        Rec::Error([1, 2, 3, 4, -5]),
        leg(2, Date::None, a, a, b""),
    ];
    let items: Vec<Vec<u8>> = vec![
        [&[0x0f], &le(&a)[..], &[0x60], &le(&b)].concat(),
        [&[0x01, 0x11, 0x34, 0x12, 0x40, 0x0a], &b"cave.upper"[..], &le(&c)].concat(),
        [&[0x60], &le(&c)[..]].concat(),
        [&[0x00, 0x12, 1, 0, 255, 0x0f], &le(&a)[..], &[0x40, 0x53], b"low", &le(&b)].concat(),
        [&[0x80, 0x11, b'w'][..], &[0; 12]].concat(),
        [&[0x80, 0x02][..], b".1", &[0; 12]].concat(),
        vec![0x31, 0x11, b'1', 0xff, 0xff, 2, 0, 3, 0, 4, 0],
        [&[0x13, 1, 0, 1, 1, 0x40, 0xa0], &le(&a)[..]].concat(),
        [&[0xff, 0x00, 0x00, 0x00], &le(&a)[..]].concat(),
        [&[0x1f], &le(&[1, 2, 3, 4, -5])[..]].concat(),
        [&[0x02, 0x10, 0x60], &le(&a)[..]].concat(),
        vec![0x00, 0x00],
    ];
    let file = v8(&items.concat());
    assert_eq!(write_all(&sheet(&records)), Ok(file.clone()));
    assert_eq!(read_all(&file), Ok((sheet(&records), 11, 8)));
}

#[test]
fn written_leg_flags() {
    let leg = |flags, label: &[u8]| Rec::Leg {
        flags,
        style: 5,
        date: Date::None,
        from: [0; 3],
        to: [0; 3],
        label: label.to_vec(),
    };
    let file = write_all(&sheet(&[leg(7, b""), leg(5, b"a"), leg(2, b"a")])).unwrap();
    assert_eq!([file[43], file[56], file[57], file[58], file[71]], [0x67, 0x45, 0x01, b'a', 0x62]);
}

#[test]
fn written_drops() {
    let x = |length: usize| station(&vec![b'x'; length]);
    let codes = |first: usize, second: usize| {
        let one = write_all(&sheet(&[x(first)])).unwrap();
        let two = write_all(&sheet(&[x(first), x(second)])).unwrap();
        two[one.len() - 1..two.len() - 14].to_vec()
    };
    assert_eq!(codes(15, 0), [0xf0]);
    assert_eq!(codes(16, 0), [0x00, 16, 0]);
    assert_eq!(codes(254, 0), [0x00, 254, 0]);
    assert_eq!(codes(255, 0), [0x00, 0xff, 255, 0, 0, 0, 0]);
    assert_eq!(codes(4096, 1), [0x00, 0xff, 0xff, 15, 0, 0, 0]);
    assert_eq!(codes(9, 9), [0x11, b'x']);
    assert_eq!(codes(0, 0), [0x00, 0x00, 0x00]);
    assert_eq!(codes(16, 17), [0x01, b'x']);
}

#[test]
fn conversion_keeps_to_its_buffers() {
    let file = old(7, &[&[0x40, 3, b'a', b'.', b'1'][..], &[0; 14]].concat());
    let (mut lent, mut out) = ([FILLER; 64], [FILLER; 64]);
    assert_eq!(convert(&file, &mut lent[..20], &mut out), refused(11, 28));
    assert_eq!((lent, out), ([FILLER; 64], [FILLER; 64]));
    assert_eq!(convert(&file, &mut lent, &mut out[..46]), refused(11, 48));
    assert_eq!(out, [FILLER; 64]);
    let sheet = sheet_with(0, b"A", b"T", &[station(b"a.1")]);
    assert_eq!(lent[..28], sheet);
    assert_eq!(lent[28..], [FILLER; 36]);
    let done = Answer::Done { bytes: 48, records: 1, version: 8 };
    assert_eq!(convert(&file, &mut lent, &mut out), done);
    assert_eq!(out[..48], write_all(&sheet).unwrap());
    assert_eq!(out[48..], [FILLER; 16]);
    assert_eq!(convert(&file[..40], &mut lent, &mut out), refused(5, 28));
}

#[test]
fn conversion_that_grows_past_16() {
    // A v3 station with nothing to append takes 14 bytes, its v8 codes 15. The
    // name is one byte, so the sheet stays small.
    let count = 1_198_000;
    let mut items = [&[0x40, 1, b'a'][..], &[0; 12]].concat();
    for _ in 0..count {
        items.extend([0x40, 0]);
        items.extend([0; 12]);
    }
    items.extend([0, 0]);
    let file = old(3, &items);
    assert!(file.len() < 16_777_216);
    let mut lent = vec![FILLER; 9 + 17 * (count + 1)];
    assert_eq!(convert(&file, &mut lent, &mut []), refused(16, 0));
    assert_eq!(lent[..4], [2, 0, 6, 0]);
    assert!(!lent.ends_with(&[FILLER]));
}

#[test]
fn stepping_one_item_at_a_time() {
    let items =
        [&[0x00, 0x11, 1, 0, 0x0f][..], &[0; 12], &[0x40, 1, b'a'], &[0; 12], &[0x00]].concat();
    let file = v8(&items);
    let (mut stepper, opened) = open(&file);
    assert_eq!(opened, Opened::At { version: 8, place: 30 });
    let mut out = [FILLER; 40];
    assert_eq!(stepper.step(&mut out), Step::Nothing);
    assert_eq!(stepper.step(&mut out), Step::Nothing);
    assert_eq!(stepper.step(&mut out), Step::Nothing);
    assert_eq!(stepper.step(&mut out[..34]), Step::Refused { number: 11, place: 35 });
    assert_eq!(out, [FILLER; 40]);
    assert_eq!(stepper.step(&mut out), Step::Record { bytes: 35, kept: 0 });
    assert_eq!(out[..35], leg(0, Date::Day(1), [0; 3], [0; 3], b"a").bytes());
    assert_eq!(out[35..], [FILLER; 5]);
    assert_eq!(stepper.step(&mut []), Step::End);
    assert_eq!(stepper.step(&mut []), Step::End);
    let more = [&file[..], &[7]].concat();
    let (mut stepper, _) = Stepper::open(&more);
    let mut last = Step::Nothing;
    for _ in 0..7 {
        last = stepper.step(&mut out);
    }
    assert_eq!(last, Step::Refused { number: 10, place: file.len() });
}

#[test]
fn stepping_after_a_refused_opening() {
    let (mut stepper, opened) = open(b"Survex 3D Image File\nv9\n");
    assert_eq!(opened, Opened::Refused { number: 2, place: 21 });
    let mut out = [FILLER; 40];
    for _ in 0..3 {
        assert_eq!(stepper.step(&mut out), Step::Refused { number: 2, place: 21 });
    }
    assert_eq!(out, [FILLER; 40]);
}

#[test]
fn time_lines_read() {
    let good: [(&[u8], u64); 12] = [
        (b"@0", 0),
        (b"@4294967295", 4294967295),
        (b"@0000000007", 7),
        (b"Thu,1970.01.01 00:00:00 UTC", 0),
        (b"   ,1970.01.01 00:00:59 GMT", 59),
        (b"Thu,1970.12.31 23:59:59 UTC", 31_535_999),
        (b"Tue,2000.02.29 00:00:00 GMT", 951_782_400),
        (b"Wed,2000.03.01 00:00:00 GMT", 951_868_800),
        (b"Thu,2099.12.31 23:59:59 UTC", 4_102_444_799),
        (b"Mon,2024.12.31 12:00:00 GMT", 1_735_646_400),
        (b"@bc,1970.01.02 00:00:00 UTC", 86_400),
        (b"\0\0\0,1970.02.01 00:01:00 GMT", 31 * 86_400 + 60),
    ];
    for (line, time) in good {
        assert_eq!(seconds(line), Some(time), "{}", String::from_utf8_lossy(line));
    }
}

#[test]
fn time_lines_not_read() {
    let bad: [&[u8]; 24] = [
        b"",
        b"@",
        b"0",
        b"@4294967296",
        b"@00000000000",
        b"@1 ",
        b"@-1",
        b"@ 1",
        b"T",
        b"Thu,1970.01.01 00:00:00 ",
        b"Thu,1970.01.01 00:00:00",
        b"Wed,1969.12.31 23:59:59 GMT",
        b"Fri,2100.01.01 00:00:00 GMT",
        b"Thu,1970.00.01 00:00:00 GMT",
        b"Thu,1970.13.01 00:00:00 GMT",
        b"Thu,1970.01.00 00:00:00 GMT",
        b"Thu,1970.01.32 00:00:00 GMT",
        b"Thu,1970.02.29 00:00:00 GMT",
        b"Thu,1970.04.31 00:00:00 GMT",
        b"Thu,1970.01.01 24:00:00 GMT",
        b"Thu,1970.01.01 00:60:00 GMT",
        b"Thu,1970.01.01 00:00:60 GMT",
        b"Thu,1970.01.01T00:00:00 GMT",
        b"Thu,1970.01.+1 00:00:00 GMT",
    ];
    for line in bad {
        assert_eq!(seconds(line), None, "{}", String::from_utf8_lossy(line));
    }
}

#[test]
fn zones_other_than_gmt_and_utc_are_not_read() {
    let at = |zone: &[u8]| [b"Thu,1970.01.01 00:00:00 ", zone].concat();
    assert_eq!(seconds(&at(b"GMT")), Some(0));
    assert_eq!(seconds(&at(b"UTC")), Some(0));
    let bad: [&[u8]; 24] = [
        b"",
        b"G",
        b"GM",
        b"UT",
        b"U",
        b"Z",
        b"BST",
        b"CET",
        b"gmt",
        b"utc",
        b"Gmt",
        b"GMT ",
        b" GMT",
        b"GMT\0",
        b"GMT+1",
        b"UTC+0",
        b"GMTUTC",
        b"GMC",
        b"UMT",
        b"GTC",
        b"UTM",
        b"TMG",
        b"   ",
        b"\xff\0\0",
    ];
    for zone in bad {
        assert_eq!(seconds(&at(zone)), None, "{zone:?}");
    }
    for place in 24..27 {
        for byte in (0..=255).filter(|byte| !b"GMTUC".contains(byte)) {
            let mut line = at(b"GMT");
            line[place] = byte;
            assert_eq!(seconds(&line), None, "{line:?}");
        }
    }
}

#[test]
fn zones_are_judged_after_the_rest_of_the_header() {
    let other = file(3, b"", b"@0", &[]);
    let summer = file(8, b"A", b"Thu,1970.01.01 00:00:00 BST", &[]);
    let no = |file, number, place| (Later::Refused { file, number, place }, &[][..]);
    assert_eq!(compare(&summer, b""), no(1, 17, 26));
    assert_eq!(compare(&other, &summer), no(2, 17, 26));
    // The v8 byte missing, then with a reserved bit.
    let (byte, end) = (summer.len() - 1, summer.len() - 1);
    assert_eq!(compare(&summer[..end], b""), no(1, 3, end));
    let mut bit = summer.clone();
    bit[byte] = 0x40;
    assert_eq!(compare(&bit, b""), no(1, 4, byte));
    // Reading and writing take any time line.
    let sheet = sheet_with(0, b"A", b"Thu,1970.01.01 00:00:00 BST", &[]);
    assert_eq!(read_all(&[&summer[..], &[0, 0]].concat()), Ok((sheet, 0, 8)));
}

#[test]
fn every_day_counts_one_more() {
    let mut expected = 0;
    for year in 1970..=2099 {
        for month in 1..=12 {
            for day in 1..=31 {
                let line = format!("Www,{year:04}.{month:02}.{day:02} 00:00:00 UTC");
                if let Some(time) = seconds(line.as_bytes()) {
                    assert_eq!(time, expected, "{line}");
                    expected += 86_400;
                }
            }
        }
    }
    assert_eq!(expected, 4_102_444_800);
}

#[test]
fn compared_files() {
    let early = file(3, b"", b"@1016373666", b"anything");
    let late = file(8, b"title", b"Sun,2002.03.17 14:01:07 GMT", &[]);
    let (answer, line) = compare(&early, &late);
    assert_eq!((answer, line), (Later::Second, &b"Sun,2002.03.17 14:01:07 GMT"[..]));
    assert_eq!(line.as_ptr(), late[30..].as_ptr());
    assert_eq!(compare(&late, &early).0, Later::First);
    assert_eq!(compare(&late, &late), (Later::Same, &[][..]));
    let no = |file, number, place| (Later::Refused { file, number, place }, &[][..]);
    let unread = file(8, b"A", b"T", &[]);
    assert_eq!(compare(&unread, b""), no(1, 17, 26));
    assert_eq!(compare(&late, &unread), no(2, 17, 26));
    assert_eq!(compare(b"", &unread), no(1, 1, 0));
    let mut bit = unread.clone();
    bit[28] = 1;
    assert_eq!(compare(&bit, b""), no(1, 4, 28));
    assert_eq!(compare(&unread[..28], b""), no(1, 3, 28));
    assert_eq!(compare(&late, b"Survex 3D Image File\n"), no(2, 2, 21));
}

#[test]
fn edits_refused_in_order() {
    let records = [station(b"a"), leg(0, Date::None, [0; 3], [1; 3], b"a"), station(b"b")];
    let file = write_all(&sheet(&records)).unwrap();
    let mut out = [FILLER; 200];
    let mut all = |file: &[u8], first, count, replacement: &[u8]| {
        let answer = edit(file, first, count, replacement, &mut out);
        assert_eq!(out, [FILLER; 200]);
        answer
    };
    assert_eq!(all(&file[..file.len() - 1], 9, 9, &[0]), refused(5, file.len() - 1));
    assert_eq!(all(&[&file[..], &[0]].concat(), 9, 9, &[0]), refused(10, file.len()));
    assert_eq!(all(&old(7, &[0]), 9, 9, &[0]), refused(14, 0));
    assert_eq!(all(&v8(&[0x10, 0x00, 0x00]), 9, 9, &[0]), refused(14, 0));
    assert_eq!(all(&v8(&[0x01, 0x00, 0x00]), 9, 9, &[0]), refused(14, 0));
    assert_eq!(all(&file, 4, 0, &[0]), refused(15, 3));
    assert_eq!(all(&file, 1, 3, &[0]), refused(15, 3));
    assert_eq!(all(&file, usize::MAX, 1, &[0]), refused(15, 3));
    assert_eq!(all(&file, usize::MAX, usize::MAX, &[0]), refused(15, 3));
    assert_eq!(all(&file, 3, 0, &[0]), refused(12, 0));
    assert_eq!(all(&file, 3, 0, &sheet(&records)), refused(12, 0));
    let unsaid = leg(5, Date::None, [0; 3], [1; 3], b"").bytes();
    assert_eq!(all(&file, 3, 0, &unsaid), refused(13, 3));
    // The new leg takes MOVE and LINE (13 + 14); the next leg then needs its
    // label byte back (2 more), having had a MOVE and a style before.
    assert_eq!(edit(&file, 1, 0, &unsaid, &mut []), refused(11, file.len() + 27 + 2));
    let said = leg(0, Date::None, [0; 3], [1; 3], b"").bytes();
    let first = write_all(&sheet(&[leg(5, Date::None, [0; 3], [1; 3], b"")])).unwrap();
    assert_eq!(all(&first, 0, 0, &said), refused(13, 1));
}

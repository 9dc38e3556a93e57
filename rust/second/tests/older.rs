//! Request #110: v7 files for the older programs.

mod common;

use common::made::*;
use common::*;
use second::*;

/// A v7 file with the header of `sheet`; its items begin at 29.
fn v7(items: &[u8]) -> Vec<u8> {
    file(7, b"A", b"@0", items)
}

/// Records that the writer must give these items, and the reader back.
fn written_and_read(records: &[Rec], items: &[&[u8]]) {
    let file = v7(&items.concat());
    assert_eq!(write_v7_all(&sheet(records)).as_ref(), Ok(&file));
    assert_eq!(read_all(&file), Ok((sheet(&unsaid(records)), records.len(), 7)));
}

/// "style normal comes back as 'not said'"
fn unsaid(records: &[Rec]) -> Vec<Rec> {
    let mut records = records.to_vec();
    for record in &mut records {
        if let Rec::Leg { style, .. } = record {
            *style = 5;
        }
    }
    records
}

fn move_to_0() -> Vec<u8> {
    [&[0x0f][..], &[0; 12]].concat()
}

#[test]
fn least_file() {
    let file = write_v7_all(&sheet_with(0, b"A", b"T", &[])).unwrap();
    assert_eq!(file, b"Survex 3D Image File\nv7\nA\nT\n\0");
    assert_eq!(file.len(), 29);
    let mut out = [FILLER; 40];
    let done = Answer::Done { bytes: 30, records: 0, version: 7 };
    assert_eq!(write_v7(&sheet(&[]), &mut out), done);
    assert_eq!(out[..30], v7(&[0]));
    assert_eq!(out[30..], [FILLER; 10]);
}

/// The codes of a station named `label` after one named `before`, without its
/// coordinates.
fn codes(before: &[u8], label: &[u8]) -> Vec<u8> {
    let close = |label: &[u8]| 1 + usize::from(!label.is_empty());
    let one = write_v7_all(&sheet(&[station(before)])).unwrap();
    let records = [station(before), station(label)];
    let two = write_v7_all(&sheet(&records)).unwrap();
    assert_eq!(read_all(&two), Ok((sheet(&records), 2, 7)));
    two[one.len() - close(before)..two.len() - 12 - close(label)].to_vec()
}

#[test]
fn labels_shortened_and_lengthened() {
    let rows: [(&[u8], &[u8], &[u8]); 13] = [
        (b"", b"", &[0x40, 0]),
        (b"", b"a", &[0x40, 1, b'a']),
        (b"a", b"a", &[0x40, 0]),
        (b"a", b"ab", &[0x40, 1, b'b']),
        (b"a", b"", &[0x00, 0x40, 0]),
        (b"a", b"b", &[0x00, 0x40, 1, b'b']),
        (b"0123456789abcdefghij", b"x", &[0x00, 0x40, 1, b'x']),
        (b"ab", b"a", &[0x10, 0x40, 0]),
        (b"ab", b"ac", &[0x10, 0x40, 1, b'c']),
        (b"abcd", b"axy", &[0x12, 0x40, 2, b'x', b'y']),
        // Dots are not used, even where 01 to 0e would do in one byte.
        (b"a.b.0123456789abcdef", b"a.b.", &[0x1f, 0x40, 0]),
        (b"a.b.c.0123456789abcdef", b"a.b.", &[0x1f, 0x11, 0x40, 0]),
        (b".0123456789abcdef0123456789abcdef", b".z", &[0x1f, 0x1f, 0x40, 1, b'z']),
    ];
    for (before, label, expected) in rows {
        assert_eq!(codes(before, label), expected, "{before:?} {label:?}");
    }
}

#[test]
fn sixteen_at_a_time_and_the_rest_last() {
    let x = |before: usize, label: usize| codes(&vec![b'x'; before], &vec![b'x'; label]);
    for drop in 1..=16 {
        assert_eq!(x(1 + drop, 1), [0x0f + drop as u8, 0x40, 0]);
        assert_eq!(x(4096, 4096 - drop), [0x0f + drop as u8, 0x40, 0]);
    }
    assert_eq!(x(18, 1), [0x1f, 0x10, 0x40, 0]);
    assert_eq!(x(33, 1), [0x1f, 0x1f, 0x40, 0]);
    assert_eq!(x(34, 1), [0x1f, 0x1f, 0x10, 0x40, 0]);
    assert_eq!(x(50, 3), [0x1f, 0x1f, 0x1e, 0x40, 0]);
    assert_eq!(x(4096, 1), [&[0x1f; 255][..], &[0x1e, 0x40, 0]].concat());
    assert_eq!(x(4096, 16), [&[0x1f; 255][..], &[0x40, 0]].concat());
    // Nothing is kept.
    for length in [1, 15, 16, 17, 32, 4096] {
        assert_eq!(x(length, 0), [0x00, 0x40, 0]);
    }
    assert_eq!(x(4096, 4096), [0x40, 0]);
}

#[test]
fn lengths_in_their_shortest_form() {
    let rows: [(usize, &[u8]); 9] = [
        (0, &[0]),
        (1, &[1]),
        (252, &[0xfc]),
        (253, &[0xfd]),
        (254, &[0xfe, 0, 0]),
        (255, &[0xfe, 1, 0]),
        (509, &[0xfe, 0xff, 0]),
        (510, &[0xfe, 0, 1]),
        (4094, &[0xfe, 0x00, 0x0f]),
    ];
    for (length, form) in rows {
        let add = vec![b'x'; length];
        assert_eq!(codes(b"", &add), [&[0x40], form, &add].concat());
        assert_eq!(codes(b"yz", &[b"yz", &add[..]].concat()), [&[0x40], form, &add].concat());
        let shorter = codes(b"yz", &[b"y", &add[..]].concat());
        assert_eq!(shorter, [&[0x10, 0x40], form, &add].concat());
    }
    let longest = vec![b'x'; 4096];
    assert_eq!(codes(b"", &longest), [&[0x40, 0xfe, 0x02, 0x0f], &longest[..]].concat());
    assert_eq!(codes(b"y", &longest), [&[0, 0x40, 0xfe, 0x02, 0x0f], &longest[..]].concat());
}

#[test]
fn written_codes() {
    let (a, b, c) = ([1, 2, 3], [4, 5, 6], [7, -8, 9]);
    let wide = [-1, 32768, 0, -2];
    let section =
        |last, date, sides, label: &[u8]| Rec::Section { last, date, sides, label: label.to_vec() };
    let records = [
        leg(5, Date::None, a, b, b"cave.upper"),
        leg(0, Date::Day(0x1234), b, c, b"cave.upper"),
        leg(5, Date::Range(1, 256), a, b, b"cave.low"),
        Rec::Station { flags: 0x1f, at: a, label: b"cave.low".to_vec() },
        Rec::Error([1, 2, 3, 4, -5]),
        section(1, Date::Range(1, 256), [-1, 2, 3, 4], b"cave.low.1"),
        section(0, Date::Range(1, 257), wide, b"x"),
        section(0, Date::None, [1, 2, 3, 4], b"x"),
        Rec::Leg { flags: 7, style: 0, date: Date::None, from: b, to: b, label: vec![] },
    ];
    let items: [Vec<u8>; 10] = [
        [&[0x0f], &le(&a)[..], &[0x80, 10], b"cave.upper", &le(&b)].concat(),
        [&[0x20, 0x34, 0x12, 0x80, 0], &le(&c)[..]].concat(),
        // Date, MOVE, then what shortens the label, straight before the LINE.
        [&[0x21, 1, 0, 255, 0x0f], &le(&a)[..], &[0x14, 0x80, 3], b"low", &le(&b)].concat(),
        [&[0x5f, 0], &le(&a)[..]].concat(),
        [&[0x22], &le(&[1, 2, 3, 4, -5])[..]].concat(),
        vec![0x31, 2, b'.', b'1', 0xff, 0xff, 2, 0, 3, 0, 4, 0],
        [&[0x23, 1, 0, 1, 1, 0x00, 0x32, 1, b'x'], &le(&wide)[..]].concat(),
        vec![0x24, 0x30, 0, 1, 0, 2, 0, 3, 0, 4, 0],
        [&[0x00, 0x87, 0], &le(&b)[..]].concat(),
        vec![0x00],
    ];
    written_and_read(&records, &[&items.concat()]);
}

#[test]
fn closing_codes() {
    let label = [&[0x40, 1, b'a'][..], &[0; 12]].concat();
    let emptied = [&[0x00, 0x40, 0][..], &[0; 12]].concat();
    let error = [&[0x22][..], &[0; 20]].concat();
    written_and_read(&[], &[&[0]]);
    written_and_read(&[Rec::Error([0; 5])], &[&error, &[0]]);
    written_and_read(&[station(b"a")], &[&label, &[0, 0]]);
    written_and_read(&[station(b"a"), Rec::Error([0; 5])], &[&label, &error, &[0, 0]]);
    written_and_read(&[station(b"a"), station(b"")], &[&label, &emptied, &[0]]);
    // No style is closed.
    let line = [&[0x80, 0][..], &[0; 12]].concat();
    let normal = leg(0, Date::None, [0; 3], [0; 3], b"");
    written_and_read(&[normal], &[&move_to_0(), &line, &[0]]);
}

/// Every form of a date, with its v7 item.
fn date_forms() -> [(Date, &'static [u8]); 8] {
    [
        (Date::None, &[]),
        (Date::Day(0), &[0x20, 0, 0]),
        (Date::Day(0xfedc), &[0x20, 0xdc, 0xfe]),
        (Date::Range(0, 1), &[0x21, 0, 0, 1]),
        (Date::Range(0x1201, 0x1300), &[0x21, 0x01, 0x12, 255]),
        (Date::Range(0x1201, 0x1301), &[0x23, 0x01, 0x12, 0x01, 0x13]),
        (Date::Range(65534, 65535), &[0x21, 0xfe, 0xff, 1]),
        (Date::Range(0, 65535), &[0x23, 0, 0, 0xff, 0xff]),
    ]
}

#[test]
fn dates_before_legs_and_sections() {
    let section: &[u8] = &[0x30, 0, 1, 0, 2, 0, 3, 0, 4, 0];
    let (line, moved) = ([&[0x80, 0][..], &[0; 12]].concat(), move_to_0());
    let leg = |date| leg(5, date, [0; 3], [0; 3], b"");
    let at = |date| dated_section(date, b"");
    for (date, item) in date_forms() {
        let taken: &[u8] = if date == Date::None { &[] } else { &[0x24] };
        written_and_read(&[at(date), at(Date::None)], &[item, section, taken, section, &[0]]);
        written_and_read(&[leg(date), at(date)], &[item, &moved, &line, section, &[0]]);
        written_and_read(&[at(date), leg(date)], &[item, section, &moved, &line, &[0]]);
        written_and_read(
            &[leg(date), station(b""), Rec::Error([0; 5]), leg(Date::None)],
            &[item, &moved, &line, &[0x40, 0], &[0; 12], &[0x22], &[0; 20], taken, &line, &[0]],
        );
        // A version 1 section takes the date back.
        let old = sheet_v1(&[leg(date), at(date)]);
        let items = [item, &moved, &line, taken, section, &[0]].concat();
        assert_eq!(write_v7_all(&old), Ok(v7(&items)));
    }
}

#[test]
fn label_codes_stand_after_the_date_and_straight_before_a_section() {
    let sides: &[u8] = &[1, 0, 2, 0, 3, 0, 4, 0];
    written_and_read(
        &[dated_section(Date::None, b"abc"), dated_section(Date::Day(7), b"abd")],
        &[&[0x30, 3], b"abc", sides, &[0x20, 7, 0, 0x10, 0x30, 1, b'd'], sides, &[0, 0]],
    );
    // An error between says nothing of labels.
    let error = [&[0x22][..], &[0; 20]].concat();
    written_and_read(
        &[dated_section(Date::None, b"abc"), Rec::Error([0; 5]), dated_section(Date::None, b"d")],
        &[&[0x30, 3], b"abc", sides, &error, &[0x00, 0x30, 1, b'd'], sides, &[0, 0]],
    );
}

#[test]
fn moves_only_where_they_differ() {
    let leg = |from, to| leg(5, Date::None, from, to, b"");
    let line = |to: [i32; 3]| [&[0x80, 0], &le(&to)[..]].concat();
    let moved = |to: [i32; 3]| [&[0x0f], &le(&to)[..]].concat();
    let (a, b) = ([0; 3], [1, 2, -3]);
    // A station in between sets no position.
    let records = [leg(a, b), station(b""), leg(b, a), leg(b, b)];
    let label = [&[0x40, 0][..], &[0; 12]].concat();
    written_and_read(&records, &[&moved(a), &line(b), &label, &line(a), &moved(b), &line(b), &[0]]);
}

#[test]
fn no_23_extended_elevation() {
    let style = leg(1, Date::None, [0; 3], [1; 3], b"");
    let bad = Rec::Station { flags: 0x80, at: [0; 3], label: vec![] };
    let extended = |records: &[Rec]| sheet_with(1, b"A", b"@0", records);
    assert_eq!(write_v7_all(&extended(&[])), Err((23, 0)));
    assert_eq!(write_v7_all(&extended(&[station(b"a"), style.clone()])), Err((23, 0)));
    assert_eq!(write_v7_all(&extended(&[station(b"a"), style, bad])), Err((12, 2)));
}

#[test]
fn no_23_station_flags_and_styles() {
    for flags in 0..=0x7f {
        let record = Rec::Station { flags, at: [0; 3], label: b"a".to_vec() };
        let answer = write_v7_all(&sheet(&[station(b"a"), record.clone(), record]));
        if flags < 0x20 {
            assert_eq!(answer.unwrap()[29 + 15], 0x40 | flags);
        } else {
            assert_eq!(answer, Err((23, 1)), "{flags:x}");
        }
    }
    for style in 0..=5 {
        let record = leg(style, Date::None, [0; 3], [1; 3], b"a");
        let answer = write_v7_all(&sheet(&[station(b"a"), Rec::Error([0; 5]), record]));
        let expected = if (1..=4).contains(&style) { Some((23, 2)) } else { None };
        assert_eq!(answer.err(), expected, "{style}");
    }
}

#[test]
fn no_13_is_not_used() {
    let styles = [5, 0, 5, 5, 0];
    let legs: Vec<Rec> = styles.map(|style| leg(style, Date::None, [0; 3], [0; 3], b"")).to_vec();
    assert_eq!(write_all(&sheet(&legs)), Err((13, 2)));
    let line = [&[0x80, 0][..], &[0; 12]].concat();
    written_and_read(&legs, &[&move_to_0(), &line, &line, &line, &line, &line, &[0]]);
}

#[test]
fn no_23_at_the_first_record_after_12() {
    let wall = Rec::Station { flags: 0x40, at: [0; 3], label: vec![] };
    let diving = leg(1, Date::None, [0; 3], [1; 3], b"");
    let records = [station(b"a"), diving, wall.clone(), station(b"")];
    assert_eq!(write_v7_all(&sheet(&records)), Err((23, 1)));
    assert_eq!(write_v7_all(&sheet(&records[2..])), Err((23, 0)));
    assert_eq!(write_v7_all(&[&sheet(&records)[..], &[0]].concat()), Err((12, 4)));
    assert_eq!(write_v7_all(&[&sheet(&[wall])[..], &[0, 1, 5]].concat()), Err((12, 1)));
    for bad in [&[][..], &[2], &[3, 0, 4, 0, 0, 0, 0], &[2, 0, 3, 0, 0, 0]] {
        assert_eq!(write_v7_all(bad), Err((12, 0)));
    }
}

/// A sheet whose v7 file is exactly `title` + 16,777,200 bytes.
fn large_sheet(title: usize) -> Vec<u8> {
    let error = Rec::Error([0; 5]).bytes();
    [sheet_with(0, &vec![b'x'; title], b"", &[]), error.repeat(798_913)].concat()
}

#[test]
fn no_16_after_23_and_before_11() {
    let longest = large_sheet(16);
    let mut file = vec![FILLER; 16_777_217];
    assert_eq!(write_v7(&longest, &mut file[..16_777_215]), refused(11, 16_777_216));
    assert!(file.iter().all(|&byte| byte == FILLER));
    let done = Answer::Done { bytes: 16_777_216, records: 798_913, version: 7 };
    assert_eq!(write_v7(&longest, &mut file), done);
    assert_eq!(file.pop(), Some(FILLER));
    let mut again = vec![FILLER; longest.len()];
    let done = Answer::Done { bytes: longest.len(), records: 798_913, version: 7 };
    assert_eq!(read(&file, &mut again), done);
    assert!(again == longest);
    let longer = large_sheet(17);
    assert_eq!(write_v7(&longer, &mut []), refused(16, 0));
    let diving = leg(1, Date::None, [0; 3], [1; 3], b"").bytes();
    let lost = [longer, diving].concat();
    assert_eq!(write_v7(&lost, &mut []), refused(23, 798_913));
    assert_eq!(write_v7(&[lost, vec![0]].concat(), &mut []), refused(12, 798_914));
}

#[test]
fn edits_of_v7_files_are_14() {
    let records = [station(b"a"), leg(5, Date::None, [0; 3], [1; 3], b"a")];
    let file = write_v7_all(&sheet(&records)).unwrap();
    let mut out = [FILLER; 200];
    assert_eq!(edit(&file, 0, 0, &[], &mut out), refused(14, 0));
    assert_eq!(edit(&file, 9, 9, &[0], &mut out), refused(14, 0));
    let cut = file.len() - 1;
    assert_eq!(edit(&file[..cut], 0, 0, &[], &mut out), refused(5, cut));
    assert_eq!(edit(&[&file[..], &[0]].concat(), 0, 0, &[], &mut out), refused(10, file.len()));
    assert_eq!(out, [FILLER; 200]);
}

/// The first record that v7 can't carry.
fn first_lost(records: &[Rec]) -> Option<usize> {
    records.iter().position(|record| match record {
        Rec::Leg { style, .. } => [1, 2, 3, 4].contains(style),
        Rec::Station { flags, .. } => *flags >= 0x20,
        _ => false,
    })
}

/// The items of the request's sentences, one record after the other.
fn items_v7(records: &[Rec]) -> Vec<u8> {
    let (mut items, mut name, mut day, mut place) = (Vec::new(), Vec::new(), Date::None, None);
    for record in records {
        if let Rec::Leg { date, .. } | Rec::Section { date, .. } = record {
            if *date != day {
                items.extend(date_item(*date));
                day = *date;
            }
        }
        if let Rec::Leg { from, to, .. } = record {
            if place.replace(*to) != Some(*from) {
                items.push(0x0f);
                items.extend(le(from));
            }
        }
        items.extend(item(record, &name));
        name = record.label().unwrap_or(&name).to_vec();
    }
    items.extend(if name.is_empty() { &[0][..] } else { &[0, 0] });
    items
}

fn date_item(date: Date) -> Vec<u8> {
    match date {
        Date::None => vec![0x24],
        Date::Day(day) => [&[0x20], &day.to_le_bytes()[..]].concat(),
        Date::Range(day, last) if last - day < 256 => {
            [&[0x21], &day.to_le_bytes()[..], &[(last - day) as u8]].concat()
        }
        Date::Range(day, last) => [&[0x23], &day.to_le_bytes()[..], &last.to_le_bytes()].concat(),
    }
}

/// What shortens the name before, then the item.
fn item(record: &Rec, before: &[u8]) -> Vec<u8> {
    match record {
        Rec::Leg { flags, to, label, .. } => {
            [appended(0x80 + flags, before, label), le(to)].concat()
        }
        Rec::Station { flags, at, label } => {
            [appended(0x40 + flags, before, label), le(at)].concat()
        }
        Rec::Section { last, sides, label, .. } => {
            if sides.iter().all(|side| (-32768..=32767).contains(side)) {
                let narrow = sides.iter().flat_map(|&side| (side as i16).to_le_bytes());
                [appended(0x30 + last, before, label), narrow.collect()].concat()
            } else {
                [appended(0x32 + last, before, label), le(sides)].concat()
            }
        }
        Rec::Error(five) => [vec![0x22], le(five)].concat(),
    }
}

fn appended(code: u8, before: &[u8], label: &[u8]) -> Vec<u8> {
    let mut keep = 0;
    while keep < before.len() && keep < label.len() && before[keep] == label[keep] {
        keep += 1;
    }
    let mut codes = if keep == 0 && !before.is_empty() {
        vec![0x00]
    } else {
        before[keep..].chunks(16).map(|dropped| 15 + dropped.len() as u8).collect()
    };
    let add = label.len() - keep;
    codes.push(code);
    match add {
        0..=253 => codes.push(add as u8),
        _ => codes.extend([0xfe, ((add - 254) % 256) as u8, ((add - 254) / 256) as u8]),
    }
    [&codes, &label[keep..]].concat()
}

#[test]
fn written_files_read_back() {
    let mut rng = Rng(0x0110_0007);
    let mut seen = [0; 2];
    for round in 0..6000 {
        let version = 7 + (round % 2) as u8;
        let records = records(&mut rng, version);
        let written = write_v7_all(&sheet(&records));
        if let Some(number) = first_lost(&records) {
            assert_eq!(written, Err((23, number)), "{round}");
            seen[1] += 1;
            continue;
        }
        seen[0] += 1;
        let file = written.unwrap();
        assert_eq!(file, v7(&items_v7(&records)), "{round}");
        let read_back = sheet(&unsaid(&records));
        assert_eq!(read_all(&file), Ok((read_back.clone(), records.len(), 7)), "{round}");
        assert_eq!(write_v7_all(&read_back), Ok(file.clone()), "{round}");
        assert_eq!(kept_of(&file), shared(&records), "{round}");
        assert_eq!(edit(&file, 0, 0, &[], &mut []), refused(14, 0));
    }
    assert!(seen.iter().all(|&count| count > 1000), "{seen:?}");
}

#[test]
fn version_1_sheets_are_written_as_their_twins() {
    let mut rng = Rng(0x0110_0106);
    for round in 0..2000 {
        let dated = records(&mut rng, 7);
        let (old, undated) = (sheet_v1(&dated), undated_sections(dated));
        let file = write_v7_all(&old).unwrap();
        assert_eq!(write_v7_all(&sheet(&undated)).as_ref(), Ok(&file), "{round}");
        assert_eq!(read_all(&file), Ok((sheet(&undated), undated.len(), 7)), "{round}");
    }
}

#[test]
fn any_coding_of_v3_to_v7_can_be_written() {
    let mut rng = Rng(0x0110_0337);
    for round in 0..3000 {
        let version = 3 + (round % 5) as u8;
        let records = records(&mut rng, version);
        let coded = file(version, b"A", b"@0", &items(&mut rng, version, &records));
        let (sheet, ..) = read_all(&coded).unwrap();
        assert_eq!(write_v7_all(&sheet), Ok(v7(&items_v7(&records))), "{round}");
    }
}

#[test]
fn spoiled_sheets_answer_as_for_v8() {
    let mut rng = Rng(0x0110_5ee7);
    let mut seen = [0; 24];
    for round in 0..20_000 {
        let records = records(&mut rng, 7 + (round % 2) as u8);
        let mut spoiled = if rng.chance(3) { sheet_v1(&records) } else { sheet(&records) };
        spoil_sheet(&mut rng, &mut spoiled);
        match write_v7_all(&spoiled) {
            Ok(file) => {
                assert_eq!(write_v7_all(&read_all(&file).unwrap().0), Ok(file));
                seen[0] += 1;
            }
            Err((number, place)) => {
                let twelve = write_all(&spoiled).err().filter(|&(number, _)| number == 12);
                assert_eq!(twelve, Some((12, place)).filter(|_| number == 12), "{round}");
                assert!(number == 12 || number == 23);
                seen[usize::from(number)] += 1;
            }
        }
    }
    assert!([0, 12, 23].iter().all(|&number| seen[number] > 1000), "{seen:?}");
}

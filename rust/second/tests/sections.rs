//! Dates on passage sections: request #106 and the two sheet versions.

mod common;

use common::*;
use second::*;

/// The XSECT item of `dated_section(_, b"x")` where the label is empty.
const FIRST: [u8; 11] = [0x30, 0x01, b'x', 1, 0, 2, 0, 3, 0, 4, 0];
/// The same item where the label is `x` already.
const AGAIN: [u8; 11] = [0x30, 0x11, b'x', 1, 0, 2, 0, 3, 0, 4, 0];
/// The end where no style was said.
const CLOSE: [u8; 2] = [0, 0];

const DAY: Date = Date::Day(7);

fn at_x(date: Date) -> Rec {
    dated_section(date, b"x")
}

/// A leg of survey `x` that goes nowhere, so that only the first needs a MOVE.
fn leg_x(date: Date) -> Rec {
    leg(5, date, [0; 3], [0; 3], b"x")
}

/// Its LINE item where the label is `x` and the position is set.
fn line_x() -> Vec<u8> {
    [&[0x60][..], &[0; 12]].concat()
}

fn move_to_0() -> Vec<u8> {
    [&[0x0f][..], &[0; 12]].concat()
}

/// Every form of a date, with its v8 item.
fn date_forms() -> [(Date, &'static [u8]); 8] {
    [
        (Date::None, &[]),
        (Date::Day(0), &[0x11, 0, 0]),
        (Date::Day(0xfedc), &[0x11, 0xdc, 0xfe]),
        (Date::Range(0, 1), &[0x12, 0, 0, 1]),
        (Date::Range(0x1201, 0x1300), &[0x12, 0x01, 0x12, 255]),
        (Date::Range(0x1201, 0x1301), &[0x13, 0x01, 0x12, 0x01, 0x13]),
        (Date::Range(65534, 65535), &[0x12, 0xfe, 0xff, 1]),
        (Date::Range(0, 65535), &[0x13, 0, 0, 0xff, 0xff]),
    ]
}

/// Records that the writer must give these items, and the reader back.
fn written_and_read(records: &[Rec], items: &[&[u8]]) {
    let file = v8(&items.concat());
    assert_eq!(write_all(&sheet(records)).as_ref(), Ok(&file));
    assert_eq!(read_all(&file), Ok((sheet(records), records.len(), 8)));
}

#[test]
fn layout_of_version_2() {
    let items = [0x13, 0x34, 0x12, 0x78, 0x56, 0x31, 0x01, b'x', 1, 0, 2, 0, 3, 0, 0xff, 0xff];
    let sheet = [
        &[2, 0, 7, 0, 0, 0, 1, b'A', b'@', b'0'][..],
        &[0, 24, 3, 1, 2, 0x12, 0x34, 0x56, 0x78],
        &[0, 0, 0, 1, 0, 0, 0, 2, 0, 0, 0, 3, 0xff, 0xff, 0xff, 0xff, b'x'],
    ];
    let file = v8(&[&items[..], &CLOSE].concat());
    assert_eq!(read_all(&file), Ok((sheet.concat(), 1, 8)));
    assert_eq!(write_all(&sheet.concat()), Ok(file));
}

#[test]
fn every_date_form_is_written_and_read_back() {
    for (date, item) in date_forms() {
        written_and_read(&[at_x(date)], &[item, &FIRST, &CLOSE]);
        let wide = Rec::Section { last: 1, date, sides: [-1, 32768, 0, -2], label: vec![] };
        let codes = [&[0x33, 0, 0, 0], &le(&[-1, 32768, 0, -2])[..]].concat();
        written_and_read(&[wide], &[item, &codes, &CLOSE]);
        // From a date to none and back again.
        let taken: &[u8] = if date == Date::None { &[] } else { &[0x10] };
        let records = [at_x(date), at_x(Date::None), at_x(date)];
        written_and_read(&records, &[item, &FIRST, taken, &AGAIN, item, &AGAIN, &CLOSE]);
    }
}

#[test]
fn same_days_in_another_form_differ() {
    let records = [at_x(Date::Day(0)), at_x(Date::None), at_x(Date::Range(0, 7)), at_x(DAY)];
    let dates: [&[u8]; 4] = [&[0x11, 0, 0], &[0x10], &[0x12, 0, 0, 7], &[0x11, 7, 0]];
    let sections: [&[u8]; 4] = [&FIRST, &AGAIN, &AGAIN, &AGAIN];
    let items: Vec<u8> = dates.iter().zip(sections).flat_map(|(d, s)| [d, s].concat()).collect();
    written_and_read(&records, &[&items, &CLOSE]);
}

#[test]
fn a_section_and_a_leg_share_the_current_date() {
    let (line, moved) = (line_x(), move_to_0());
    for (date, item) in date_forms() {
        written_and_read(
            &[at_x(date), leg_x(date), at_x(date)],
            &[item, &FIRST, &moved, &line, &AGAIN, &CLOSE],
        );
        let start = [&moved[..], &[0x40, 0x01, b'x'], &[0; 12]].concat();
        written_and_read(
            &[leg_x(date), at_x(date), leg_x(date)],
            &[item, &start, &AGAIN, &line, &CLOSE],
        );
    }
}

#[test]
fn stations_and_errors_between_leave_the_date() {
    let label = [&[0x80, 0x11, b'x'][..], &[0; 12]].concat();
    let error = [&[0x1f][..], &[0; 20]].concat();
    let records = [at_x(DAY), station(b"x"), Rec::Error([0; 5]), leg_x(DAY)];
    let items =
        [&[0x11, 7, 0][..], &FIRST, &label, &error, &move_to_0(), &line_x(), &CLOSE].concat();
    written_and_read(&records, &[&items]);
}

#[test]
fn a_leg_after_a_section_keeps_style_date_move() {
    let styled = |date| leg(1, date, [0; 3], [0; 3], b"x");
    let (line, moved) = (line_x(), move_to_0());
    let other = &[0x01, 0x11, 8, 0][..];
    written_and_read(
        &[at_x(DAY), styled(Date::Day(8)), at_x(DAY)],
        &[&[0x11, 7, 0], &FIRST, other, &moved, &line, &[0x11, 7, 0], &AGAIN, &CLOSE],
    );
    written_and_read(
        &[at_x(DAY), styled(Date::None), at_x(Date::None)],
        &[&[0x11, 7, 0], &FIRST, &[0x01, 0x10], &moved, &line, &AGAIN, &CLOSE],
    );
}

#[test]
fn version_1_sections_take_the_date_back() {
    let range = Date::Range(7, 9);
    let legs_and_sections = |date| {
        [leg_x(DAY), at_x(date), leg_x(DAY), at_x(date), at_x(date), leg_x(range), at_x(date)]
    };
    let (line, start) = (line_x(), [&[0x40, 0x01, b'x'][..], &[0; 12]].concat());
    let day = &[0x11, 7, 0];
    let items = [
        &[day, &move_to_0()[..], &start, &[0x10], &AGAIN].concat()[..],
        &[day, &line[..], &[0x10], &AGAIN, &AGAIN].concat(),
        &[&[0x12, 7, 0, 2], &line[..], &[0x10], &AGAIN, &CLOSE].concat(),
    ];
    written_and_read(&legs_and_sections(Date::None), &items);
    // Version 1 holds no date, whichever the section was to have.
    for date in [Date::None, DAY, range] {
        let old = sheet_v1(&legs_and_sections(date));
        assert_eq!(twin(&old), sheet(&legs_and_sections(Date::None)));
        assert_eq!(write_all(&old), Ok(v8(&items.concat())));
    }
}

#[test]
fn version_1_without_dates_is_written_as_before() {
    let records = [leg_x(Date::None), at_x(Date::None), station(b"x"), Rec::Error([3; 5])];
    let file = write_all(&sheet_v1(&records)).unwrap();
    assert_eq!(write_all(&sheet(&records)).as_ref(), Ok(&file));
    assert!(!file[30..].contains(&0x10));
    assert_eq!(read_all(&file), Ok((sheet(&records), 4, 8)));
}

#[test]
fn version_1_sections_are_still_judged() {
    let good = section([0; 4], b"").bytes_v1();
    assert_eq!(good.len(), 2 + 18);
    let not_a_flag = [&good[..3], &[2], &good[4..]].concat();
    for bad in [framed(&good[2..19]), not_a_flag] {
        let sheet = [&sheet_v1(&[station(b"a")])[..], &good, &bad, &good].concat();
        assert_eq!(write_all(&sheet), Err((12, 2)));
    }
}

#[test]
fn other_version_bytes_are_12_at_0() {
    for version in (0..=255u8).filter(|version| ![1, 2].contains(version)) {
        for records in [&[][..], &[at_x(DAY)], &[station(b"a"), at_x(Date::Range(1, 1))]] {
            let mut sheet = sheet(records);
            sheet[0] = version;
            assert_eq!(write_all(&sheet), Err((12, 0)), "{version}");
        }
        assert_eq!(write_all(&[version]), Err((12, 0)));
    }
}

/// A version 2 sheet of two stations and a section as version 1 has it.
fn with_old_section(sides: [i32; 4], label: &[u8]) -> Vec<u8> {
    let before = sheet(&[station(b"a"), station(b"b")]);
    [before, section(sides, label).bytes_v1()].concat()
}

#[test]
fn version_1_sections_break_a_version_2_sheet() {
    // Up to four label bytes leave the record too short for a date.
    for label in [&b""[..], b"x", b"abcd"] {
        assert_eq!(write_all(&with_old_section([0; 4], label)), Err((12, 2)));
    }
    // The date is read from L and the first byte of R: kind 255, kind 3,
    // unused days not 0, equal days and days in the wrong order.
    for left in [-1, 0x0300_0000, 1, 0x0000_0100, 0x0100_0001, 0x0200_0000, 0x0200_0100] {
        let bad = with_old_section([left, 0, 0, 0], b"abcdef");
        assert_eq!(write_all(&bad), Err((12, 2)), "{left:x}");
    }
    let bad = with_old_section([0, 0x0100_0000, 0, 0], b"abcdef");
    assert_eq!(write_all(&bad), Err((12, 2)));
    let file = write_all(&sheet(&[station(b"a")])).unwrap();
    let replacement = [at_x(DAY).bytes(), section([0; 4], b"x").bytes_v1()].concat();
    assert_eq!(edit(&file, 0, 1, &replacement, &mut []), refused(12, 1));
}

#[test]
fn version_1_sections_may_be_others_in_version_2() {
    let dates = [
        (0, 1, Date::None),
        (0x0112_3400, 1, Date::Day(0x1234)),
        (0x0212_3412, 0x3500_0001, Date::Range(0x1234, 0x1235)),
        (0x0200_0000, 0x0100_0001, Date::Range(0, 1)),
    ];
    for (left, right, date) in dates {
        for name in [&b""[..], b"xyz"] {
            let label = [b"\0\0\0\0\x04", name].concat();
            let judged = with_old_section([left, right, 2, 3], &label);
            let sides = [0x100, 0x200, 0x300, 4];
            let shifted = Rec::Section { last: 0, date, sides, label: name.to_vec() };
            assert_eq!(judged, sheet(&[station(b"a"), station(b"b"), shifted]));
            let file = write_all(&judged).unwrap();
            assert_eq!(read_all(&file), Ok((judged, 3, 8)));
        }
    }
}

#[test]
fn version_2_sections_are_others_in_version_1() {
    let mut judged = sheet(&[at_x(Date::Range(0x1234, 0x5678))]);
    judged[0] = 1;
    // The date begins L, so every number and the label begin five bytes early.
    let sides = [0x0212_3456, 0x7800_0000, 0x0100_0000, 0x0200_0000];
    let shifted = [section(sides, b"\x03\0\0\0\x04x")];
    assert_eq!(judged, sheet_v1(&shifted));
    let file = write_all(&judged).unwrap();
    assert_eq!(read_all(&file), Ok((sheet(&shifted), 1, 8)));
}

#[test]
fn longest_sections_of_both_versions() {
    let long = vec![b'x'; 4097];
    let longest = [dated_section(Date::Range(1, 9), &long[..4096])];
    assert_eq!(longest[0].bytes().len(), 2 + 23 + 4096);
    let file = write_all(&sheet(&longest)).unwrap();
    assert_eq!(read_all(&file), Ok((sheet(&longest), 1, 8)));
    assert!(write_all(&sheet_v1(&longest)).is_ok());
    let longer = [at_x(DAY), dated_section(DAY, &long)];
    assert_eq!(write_all(&sheet(&longer)), Err((12, 1)));
    assert_eq!(write_all(&sheet_v1(&longer)), Err((12, 1)));
}

/// Reads a file of the version with these date items, each followed by a
/// section, and converts it.
fn dates_in_force(version: u8, dates: &[(&[u8], Date)]) {
    let again: &[u8] = if version == 8 { &AGAIN } else { &[0x30, 0, 1, 0, 2, 0, 3, 0, 4, 0] };
    let mut items = FIRST.to_vec();
    let mut records = vec![at_x(Date::None)];
    for (item, date) in dates {
        items.extend([item, again].concat());
        records.push(at_x(*date));
    }
    // A date after the last section touches none.
    items.extend(dates[0].0);
    items.extend(CLOSE);
    let file = file(version, b"A", b"@0", &items);
    assert_eq!(read_all(&file), Ok((sheet(&records), records.len(), version)));
    let mut lent = vec![FILLER; sheet(&records).len()];
    let (converted, ..) = watched(|out| convert(&file, &mut lent.clone(), out)).unwrap();
    assert_eq!(read_all(&converted), Ok((sheet(&records), records.len(), 8)));
    convert(&file, &mut lent, &mut []);
    assert_eq!(lent, sheet(&records));
}

#[test]
fn v5_and_v6_sections_have_the_date_in_force() {
    let time = |days: u32| (days * 86400 + 86399).to_le_bytes();
    let day = [&[0x20][..], &time(0)].concat();
    let range = [&[0x21][..], &time(1), &time(3)].concat();
    let same = [&[0x21][..], &time(4), &time(4)].concat();
    for version in [5, 6] {
        dates_in_force(
            version,
            &[
                (&day, Date::Day(25567)),
                (&[], Date::Day(25567)),
                (&range, Date::Range(25568, 25570)),
                (&same, Date::Day(25571)),
            ],
        );
    }
}

#[test]
fn v7_and_v8_sections_have_the_date_in_force() {
    for (version, [none, day, span, two]) in
        [(7, [0x24, 0x20, 0x21, 0x23]), (8, [0x10, 0x11, 0x12, 0x13])]
    {
        dates_in_force(
            version,
            &[
                (&[day, 0x34, 0x12], Date::Day(0x1234)),
                (&[], Date::Day(0x1234)),
                (&[span, 7, 0, 255], Date::Range(7, 262)),
                (&[none], Date::None),
                (&[two, 7, 0, 0xff, 0xff], Date::Range(7, 65535)),
                (&[span, 7, 0, 0], DAY),
                (&[none, two, 8, 0, 8, 0], Date::Day(8)),
            ],
        );
    }
}

#[test]
fn conversion_writes_the_date_before_the_section() {
    let date = [&[0x20][..], &86400u32.to_le_bytes()].concat();
    let label = |codes: [u8; 3]| [&codes[..], &[0; 12]].concat();
    // The date stands before a station here, and moves behind it.
    let items = [&date[..], &label([0x40, 1, b'x']), &[0x00], &FIRST, &CLOSE].concat();
    let [low, high] = 25568u16.to_le_bytes();
    let expected = [&label([0x80, 1, b'x'])[..], &[0x11, low, high], &AGAIN, &CLOSE].concat();
    let mut lent = [FILLER; 100];
    let made = watched(|out| convert(&file(5, b"A", b"@0", &items), &mut lent.clone(), out));
    assert_eq!(made, Ok((v8(&expected), 2, 8)));
    let answer = convert(&file(5, b"A", b"@0", &items), &mut lent, &mut []);
    assert_eq!(answer, refused(11, v8(&expected).len()));
    let sheet = sheet(&[station(b"x"), dated_section(Date::Day(25568), b"x")]);
    assert_eq!(lent[..sheet.len()], sheet);
}

#[test]
fn edits_with_dated_sections() {
    let old = [leg_x(DAY), at_x(DAY), leg_x(DAY)];
    let file = write_all(&sheet(&old)).unwrap();
    let edited = |first: usize, count: usize, new: &[Rec]| {
        let mut spliced = old.to_vec();
        spliced.splice(first..first + count, new.iter().cloned());
        let made = watched(|out| edit(&file, first, count, &joined(new), out)).unwrap();
        assert_eq!(made, (write_all(&sheet(&spliced)).unwrap(), spliced.len(), 8));
        made.0
    };
    for (date, _) in date_forms() {
        edited(0, 0, &[at_x(date)]);
        edited(1, 1, &[at_x(date)]);
        edited(0, 3, &[at_x(DAY), at_x(date), at_x(DAY)]);
        edited(3, 0, &[station(b"y"), at_x(date), leg_x(Date::None)]);
    }
    // The section loses the date, and the leg after it needs it again.
    let start = [&[0x11, 7, 0], &move_to_0()[..], &[0x40, 0x01, b'x'], &[0; 12]].concat();
    let items = [&start[..], &[0x10], &AGAIN, &[0x11, 7, 0], &line_x(), &CLOSE];
    assert_eq!(edited(1, 1, &[at_x(Date::None)]), v8(&items.concat()));
    assert_eq!(edited(1, 1, &[at_x(DAY)]), file);
}

#[test]
fn files_to_edit_are_judged_by_version_2() {
    let unchanged = |items: &[&[u8]]| {
        let file = v8(&items.concat());
        match watched(|out| edit(&file, 0, 0, &[], out)) {
            Ok((same, ..)) => assert_eq!(same, file),
            Err(refusal) => return Err(refusal),
        }
        Ok(())
    };
    let day = &[0x11, 7, 0];
    let label = [&[0x80, 0x01, b'x'][..], &[0; 12]].concat();
    assert_eq!(unchanged(&[day, &FIRST, &CLOSE]), Ok(()));
    assert_eq!(unchanged(&[&label, day, &AGAIN, &CLOSE]), Ok(()));
    // What a writer of version 1 gave is taken: its section had the leg's date.
    let start = [day, &move_to_0()[..], &[0x40, 0x01, b'x'], &[0; 12]].concat();
    assert_eq!(unchanged(&[&start, &AGAIN, &line_x(), &CLOSE]), Ok(()));
    // The date must stand straight before the section, differ, be short and
    // be needed.
    assert_eq!(unchanged(&[day, &label, &AGAIN, &CLOSE]), Err((14, 0)));
    assert_eq!(unchanged(&[day, &FIRST, day, &AGAIN, &CLOSE]), Err((14, 0)));
    assert_eq!(unchanged(&[&[0x10], &FIRST, &CLOSE]), Err((14, 0)));
    assert_eq!(unchanged(&[&[0x12, 7, 0, 0], &FIRST, &CLOSE]), Err((14, 0)));
    assert_eq!(unchanged(&[&[0x13, 7, 0, 8, 0], &FIRST, &CLOSE]), Err((14, 0)));
    assert_eq!(unchanged(&[day, &FIRST, &[0x10], &CLOSE]), Err((14, 0)));
}

#[test]
fn stepping_a_dated_section() {
    let file = v8(&[&[0x12, 7, 0, 2][..], &FIRST, &[0x10], &AGAIN, &CLOSE].concat());
    let (mut stepper, opened) = open(&file);
    assert_eq!(opened, Opened::At { version: 8, place: 30 });
    let mut out = [FILLER; 40];
    assert_eq!(stepper.step(&mut out), Step::Nothing);
    assert_eq!(stepper.step(&mut out[..25]), Step::Refused { number: 11, place: 26 });
    assert_eq!(out, [FILLER; 40]);
    assert_eq!(stepper.step(&mut out[..26]), Step::Record { bytes: 26, kept: 0 });
    let sides = [0, 0, 0, 1, 0, 0, 0, 2, 0, 0, 0, 3, 0, 0, 0, 4];
    let record = [&[0, 24, 3, 0, 2, 0, 7, 0, 9][..], &sides, b"x"].concat();
    assert_eq!(out[..26], record);
    assert_eq!(out[26..], [FILLER; 14]);
    assert_eq!(stepper.step(&mut []), Step::Nothing);
    assert_eq!(stepper.step(&mut out), Step::Record { bytes: 26, kept: 0 });
    assert_eq!(out[..26], at_x(Date::None).bytes());
    assert_eq!(stepper.step(&mut []), Step::Nothing);
    assert_eq!(stepper.step(&mut []), Step::End);
}

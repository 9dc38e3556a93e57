//! The cases at the edges of document 01, and its slips.

mod common;

use common::*;
use second::*;

fn label_after(version: u8, items: &[u8]) -> Result<Vec<u8>, (u8, usize)> {
    // A station with nothing to append shows the label.
    let mut all = items.to_vec();
    all.extend([0x40, 0x00]);
    all.extend([0; 12]);
    all.extend([0x00, 0x00]);
    let (sheet, records, _) = read_all(&old(version, &all))?;
    let mut place = 1;
    for _ in 0..records {
        place += 2 + usize::from(u16::from_be_bytes([sheet[place], sheet[place + 1]]));
    }
    Ok(sheet[place + 16..].to_vec())
}

fn named(label: &[u8]) -> Vec<u8> {
    let length = u32::try_from(label.len()).unwrap().to_le_bytes();
    [&[0x40, 0xff], &length[..], label, &[0; 12]].concat()
}

#[test]
fn case_1_least_v8_file() {
    let file = v8(&[0, 0]);
    assert_eq!(file.len(), 32);
    let sheet = vec![0x02, 0x00, 0x07, 0x00, 0x00, 0x00, 0x01, 0x41, 0x40, 0x30];
    assert_eq!(read_all(&file), Ok((sheet.clone(), 0, 8)));
    assert_eq!(write_all(&sheet), Ok(file));
}

#[test]
fn case_2_one_byte_less_or_more() {
    assert_eq!(read_all(&v8(&[0])), Err((5, 31)));
    assert_eq!(read_all(&v8(&[0, 0, 0])), Err((10, 32)));
}

#[test]
fn case_3_least_v3_file() {
    let file = old(3, &[0]);
    assert_eq!(file.len(), 29);
    let sheet = vec![0x02, 0x00, 0x06, 0x00, 0x00, 0x00, 0x01, 0x41, 0x54];
    assert_eq!(read_all(&file), Ok((sheet, 0, 3)));
}

#[test]
fn case_4_dots() {
    let start = named(b"a.b.0123456789abcdef");
    let place = 28 + start.len();
    let after = |code: u8| label_after(3, &[&start[..], &[code]].concat());
    assert_eq!(after(0x01), Ok(b"a.b.".to_vec()));
    assert_eq!(after(0x02), Ok(b"a.".to_vec()));
    assert_eq!(after(0x03), Err((6, place)));
}

#[test]
fn case_5_dropping_leaves_a_byte() {
    let seventeen = named(b"0123456789abcdefg");
    let sixteen = named(b"0123456789abcdef");
    assert_eq!(label_after(7, &[&seventeen[..], &[0x1f]].concat()), Ok(b"0".to_vec()));
    assert_eq!(label_after(7, &[&sixteen[..], &[0x1f]].concat()), Err((6, 28 + sixteen.len())));
}

/// A leg after the given date item.
fn dated(version: u8, date: &[u8]) -> Result<Date, (u8, usize)> {
    let items = [date, &[0x0f], &[0; 12], &[0x80, 0x00], &[0; 12], &[0]].concat();
    let (sheet, records, _) = read_all(&old(version, &items))?;
    assert_eq!(records, 1);
    let day = |place| u16::from_be_bytes([sheet[place], sheet[place + 1]]);
    // The header takes 9 bytes, so the leg's date kind stands at 9 + 2 + 3.
    match sheet[14] {
        0 => assert_eq!((day(15), day(17)), (0, 0)),
        1 => assert_eq!(day(17), 0),
        _ => assert!(day(15) < day(17)),
    }
    Ok(match sheet[14] {
        0 => Date::None,
        1 => Date::Day(day(15)),
        _ => Date::Range(day(15), day(17)),
    })
}

#[test]
fn case_6_spans() {
    assert_eq!(dated(7, &[0x21, 0xff, 0xff, 0x00]), Ok(Date::Day(65535)));
    assert_eq!(dated(7, &[0x21, 0xff, 0xff, 0x01]), Err((9, 28)));
    assert_eq!(dated(7, &[0x21, 0xfe, 0xff, 0x01]), Ok(Date::Range(65534, 65535)));
    assert_eq!(dated(7, &[0x23, 5, 0, 5, 0]), Ok(Date::Day(5)));
    assert_eq!(dated(7, &[0x23, 5, 0, 4, 0]), Err((9, 28)));
    assert_eq!(dated(7, &[0x23, 5, 0, 6, 0]), Ok(Date::Range(5, 6)));
    assert_eq!(dated(7, &[0x20, 0, 0]), Ok(Date::Day(0)));
    assert_eq!(dated(7, &[0x20, 7, 0, 0x24]), Ok(Date::None));
}

#[test]
fn case_7_seconds_to_days() {
    let one = |seconds: u32| dated(6, &[&[0x20][..], &seconds.to_le_bytes()].concat());
    let two =
        |a: u32, b: u32| dated(4, &[&[0x21][..], &a.to_le_bytes(), &b.to_le_bytes()].concat());
    assert_eq!(one(0), Ok(Date::Day(25567)));
    assert_eq!(one(86399), Ok(Date::Day(25567)));
    assert_eq!(one(86400), Ok(Date::Day(25568)));
    assert_eq!(one(3453321599), Ok(Date::Day(65535)));
    assert_eq!(one(3453321600), Err((9, 28)));
    assert_eq!(one(u32::MAX), Err((9, 28)));
    // "Seconds become days, before 9 is judged"
    assert_eq!(two(86399, 0), Ok(Date::Day(25567)));
    assert_eq!(two(86400, 86399), Err((9, 28)));
    assert_eq!(two(0, 86400), Ok(Date::Range(25567, 25568)));
    assert_eq!(two(0, 3453321600), Err((9, 28)));
    assert_eq!(two(3453321600, 3453321600), Err((9, 28)));
}

#[test]
fn case_8_label_lengths_written() {
    let codes = |length: usize| {
        let file = write_all(&sheet(&[station(&vec![b'x'; length])])).unwrap();
        file[31..file.len() - 14 - length].to_vec()
    };
    assert_eq!(codes(1), [0x01]);
    assert_eq!(codes(15), [0x0f]);
    assert_eq!(codes(16), [0x00, 0x00, 0x10]);
    assert_eq!(codes(254), [0x00, 0x00, 0xfe]);
    assert_eq!(codes(255), [0x00, 0x00, 0xff, 0xff, 0x00, 0x00, 0x00]);
    assert_eq!(codes(4096), [0x00, 0x00, 0xff, 0x00, 0x10, 0x00, 0x00]);
}

#[test]
fn case_9_longest_label() {
    let long = vec![b'x'; 4097];
    assert_eq!(label_after(3, &named(&long[..4096])), Ok(long[..4096].to_vec()));
    assert_eq!(label_after(3, &named(&long)), Err((7, 28)));
    for (length, good) in [(4096u32, true), (4097, false)] {
        let add = &long[..length as usize];
        let items = [&[0x80, 0, 0, 0xff], &length.to_le_bytes()[..], add, &[0; 14]].concat();
        assert_eq!(read_all(&v8(&items)).is_ok(), good);
        if !good {
            assert_eq!(read_all(&v8(&items)), Err((7, 30)));
        }
    }
    // Appending to 4,096 is refused even when little is appended, and dropping
    // first makes room.
    let start = [&[0x80, 0, 0, 0xff, 0, 16, 0, 0], &long[..4096], &[0; 12]].concat();
    let items = [&start[..], &[0x80, 0x01, b'y'], &[0; 14]].concat();
    assert_eq!(read_all(&v8(&items)), Err((7, 30 + start.len())));
    let items = [&start[..], &[0x80, 0x11, b'y'], &[0; 14]].concat();
    assert!(read_all(&v8(&items)).is_ok());
    assert_eq!(write_all(&sheet(&[station(&long)])), Err((12, 0)));
}

#[test]
fn case_10_section_widths() {
    let codes = |sides| {
        let file = write_all(&sheet(&[section(sides, b"")])).unwrap();
        file[30..file.len() - 2].to_vec()
    };
    let narrow = codes([32767; 4]);
    assert_eq!(narrow[..4], [0x30, 0, 0, 0]);
    assert_eq!(narrow[4..], [0xff, 0x7f].repeat(4));
    let wide = codes([32767, 32768, -1, -32769]);
    assert_eq!(wide, [&[0x32, 0, 0, 0], &le(&[32767, 32768, -1, -32769])[..]].concat());
    assert_eq!(codes([-32768, -1, 0, 1]).len(), 12);
    assert_eq!(codes([-32769, -1, 0, 1]).len(), 20);
}

#[test]
fn case_11_station_flags() {
    let items = [&[0x60, 0x00][..], &[0; 13]].concat();
    assert_eq!(read_all(&old(7, &items)), Err((4, 28)));
    let items = [&[0xa0, 0x01, b'x'][..], &[0; 14]].concat();
    let anonymous = Rec::Station { flags: 0x20, at: [0; 3], label: b"x".to_vec() };
    assert_eq!(read_all(&v8(&items)), Ok((sheet(&[anonymous]), 1, 8)));
}

#[test]
fn case_12_drop_before_position() {
    assert_eq!(read_all(&v8(&[&[0x40, 0x20][..], &[0; 12]].concat())), Err((6, 30)));
    assert_eq!(read_all(&v8(&[&[0x40, 0x01, 0x61][..], &[0; 12]].concat())), Err((8, 30)));
    assert_eq!(read_all(&v8(&[&[0x60][..], &[0; 12]].concat())), Err((8, 30)));
}

#[test]
fn case_13_time_lines() {
    assert_eq!(seconds(b"Sun,2002.03.17 14:01:07 GMT"), Some(1016373667));
    let one = file(8, b"", b"Sun,2002.03.17 14:01:07 GMT", &[]);
    let other = file(3, b"", b"@1016373667", &[]);
    assert_eq!(compare(&one, &other), (Later::Same, &[][..]));
    // Request #101: "case 13's `BST` line now gives 17".
    assert_eq!(seconds(b"Sun,2002.03.17 14:01:07 BST"), None);
    let summer = file(8, b"", b"Sun,2002.03.17 14:01:07 BST", &[]);
    let no = |file| (Later::Refused { file, number: 17, place: 25 }, &[][..]);
    assert_eq!(compare(&summer, &other), no(1));
    assert_eq!(compare(&other, &summer), no(2));
}

#[test]
fn case_14_listed_items() {
    let mut items = vec![0x82, 0x03, 0x61, 0x2e, 0x31];
    items.extend([0; 12]);
    items.push(0x00);
    items.push(0x0f);
    items.extend([0; 12]);
    items.extend([0x40, 0x20, 0x64, 0, 0, 0, 0, 0, 0, 0, 0xff, 0xff, 0xff, 0xff]);
    items.push(0x00);
    let station = Rec::Station { flags: 2, at: [0; 3], label: b"a.1".to_vec() };
    let leg = leg(0, Date::None, [0; 3], [100, 0, -1], b"a");
    assert_eq!(read_all(&v8(&items)), Ok((sheet(&[station, leg]), 2, 8)));
}

#[test]
fn slip_first_00_in_v8_sets_the_style() {
    assert_eq!(read_all(&v8(&[0x00])), Err((5, 31)));
    assert!(read_all(&v8(&[0x01, 0x00, 0x00])).is_ok());
    assert_eq!(read_all(&v8(&[0x00, 0x00, 0x00])), Err((10, 32)));
    assert!(read_all(&v8(&[0x00, 0x04, 0x00, 0x00])).is_ok());
}

#[test]
fn slip_dots_in_the_dropped_bytes() {
    // Five dots are dropped with the 16; only two are left, one at the end.
    let start = named(b"x.yz.abc.....01234567");
    let after = |code: u8| label_after(5, &[&start[..], &[code]].concat());
    assert_eq!(after(0x01), Ok(b"x.yz.".to_vec()));
    assert_eq!(after(0x02), Ok(b"x.".to_vec()));
    assert_eq!(after(0x03), Err((6, 28 + start.len())));
    // A label that is nothing but the first dot is left standing.
    let start = named(b".0123456789abcdef");
    assert_eq!(label_after(5, &[&start[..], &[0x01]].concat()), Ok(b".".to_vec()));
    let start = named(b"................");
    assert_eq!(label_after(5, &[&start[..], &[0x01]].concat()), Err((6, 28 + start.len())));
}

#[test]
fn slip_order_within_an_item() {
    // A LINE far too long, unplaced and unfinished is unfinished.
    let long = vec![b'x'; 4097];
    let whole = [&[0x80, 0xff, 0x01, 0x10, 0, 0], &long[..], &[0; 12]].concat();
    assert_eq!(read_all(&old(3, &whole[..whole.len() - 1])), Err((5, 28)));
    assert_eq!(read_all(&old(3, &whole)), Err((7, 28)));
    let short = [&[0x80, 0xff, 0x00, 0x10, 0, 0], &long[..4096], &[0; 12]].concat();
    assert_eq!(read_all(&old(3, &short)), Err((8, 28)));
    // D too great and A too great: 6 first.
    let both = [&[0x40, 0, 1, 0xff, 0x01, 0x10, 0, 0], &long[..], &[0; 12]].concat();
    assert_eq!(read_all(&v8(&both)), Err((6, 30)));
}

#[test]
fn slip_omitted_sides() {
    let narrow = [&[0x30, 0x01, b'x'], &[0xff; 8][..], &[0, 0]].concat();
    let wide = [&[0x32, 0x01, b'x'], &[0xff; 16][..], &[0, 0]].concat();
    let expected = Ok((sheet(&[section([-1; 4], b"x")]), 1, 8));
    assert_eq!(read_all(&v8(&narrow)), expected);
    assert_eq!(read_all(&v8(&wide)), expected);
}

#[test]
fn slip_255_is_not_one_byte() {
    let long = vec![b'x'; 255];
    let file = write_all(&sheet(&[station(&long), station(b"")])).unwrap();
    let second = 30 + 1 + 7 + 255 + 12;
    assert_eq!(file[second..second + 8], [0x80, 0x00, 0xff, 0xff, 0x00, 0x00, 0x00, 0x00]);
}

#[test]
fn slip_normal_written_once() {
    let legs = [leg(0, Date::None, [0; 3], [1; 3], b""), leg(0, Date::None, [1; 3], [2; 3], b"")];
    let file = write_all(&sheet(&legs)).unwrap();
    let items =
        [&[0x00, 0x0f], &le(&[0; 3])[..], &[0x60], &le(&[1; 3]), &[0x60], &le(&[2; 3]), &[0]];
    assert_eq!(file, v8(&items.concat()));
}

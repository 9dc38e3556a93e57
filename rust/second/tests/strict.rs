//! Request #108: strict stations.

mod common;

use common::made::*;
use common::*;
use second::*;

/// The sheet, its record count and the version, with every lent byte watched;
/// the room held something else before.
fn strict_all(file: &[u8], room: usize) -> Result<(Vec<u8>, usize, u8), (u8, usize)> {
    watched(|sheet| {
        let mut room = vec![FILLER; room];
        let answer = read_strict(file, sheet, &mut room);
        assert!(room.iter().all(|&byte| byte == 0), "{answer:?}");
        answer
    })
}

/// A v8 item whose label drops and appends this much, by the 00 form.
fn item(code: u8, drop: u8, add: &[u8], rest: &[u8]) -> Vec<u8> {
    [&[code, 0, drop, add.len() as u8], add, rest].concat()
}

fn label_at(drop: u8, add: &[u8], place: [i32; 3]) -> Vec<u8> {
    item(0x80, drop, add, &le(&place))
}

fn label(drop: u8, add: &[u8]) -> Vec<u8> {
    label_at(drop, add, [0; 3])
}

fn xsect(drop: u8, add: &[u8]) -> Vec<u8> {
    item(0x30, drop, add, &[1, 0, 2, 0, 3, 0, 4, 0])
}

fn line(drop: u8, add: &[u8]) -> Vec<u8> {
    item(0x40, drop, add, &[0; 12])
}

fn move_to_0() -> Vec<u8> {
    [&[0x0f][..], &[0; 12]].concat()
}

/// Nothing, or a number and which item it names by its place.
type Judged = Option<(u8, usize)>;

/// Judges a v8 file of the items. A file that passes reads as it always did.
fn judged(items: &[Vec<u8>], room: usize) -> Judged {
    let file = v8(&[&items.concat()[..], &[0, 0]].concat());
    match strict_all(&file, room) {
        Ok(read) => {
            assert_eq!(read_all(&file), Ok(read));
            None
        }
        Err((number, place)) => {
            let place_of = |which: usize| 30 + items[..which].concat().len();
            Some((number, (0..items.len()).find(|&which| place_of(which) == place).unwrap()))
        }
    }
}

/// Room enough for any of the short names here.
const ROOMY: usize = 1000;

#[test]
fn one_station_byte_by_byte() {
    let items = [
        &[0x84, 0x01, b'a', 1, 0, 0, 0, 0xfe, 0xff, 0xff, 0xff, 0, 1, 0, 0][..],
        &[0x31, 0x11, b'a', 1, 0, 2, 0, 3, 0, 0xff, 0xff, 0, 0],
    ];
    let sheet = [
        &[2, 0, 7, 0, 0, 0, 1, b'A', b'@', b'0'][..],
        &[0, 15, 2, 4, 0, 0, 0, 1, 0xff, 0xff, 0xff, 0xfe, 0, 0, 1, 0, b'a'],
        &[0, 24, 3, 1, 0, 0, 0, 0, 0],
        &[0, 0, 0, 1, 0, 0, 0, 2, 0, 0, 0, 3, 0xff, 0xff, 0xff, 0xff, b'a'],
    ]
    .concat();
    let file = v8(&items.concat());
    let (mut out, mut room) = ([FILLER; 60], [FILLER; 40]);
    let done = Answer::Done { bytes: 53, records: 2, version: 8 };
    assert_eq!(read_strict(&file, &mut out, &mut room), done);
    assert_eq!(out[..53], sheet);
    assert_eq!(out[53..], [FILLER; 7]);
    assert_eq!(room, [0; 40]);
    assert_eq!(strict_all(&file, 33), Ok((sheet, 2, 8)));
    assert_eq!(strict_all(&file, 32), Err((22, 30)));
    // The section alone is at no known station.
    let alone = v8(&[&[0x31, 0x01, b'a', 1, 0, 2, 0, 3, 0, 0xff, 0xff][..], &[0, 0]].concat());
    assert_eq!(strict_all(&alone, 33), Err((18, 30)));
    assert!(read_all(&alone).is_ok());
}

#[test]
fn files_without_stations_need_no_room() {
    let empty = vec![2, 0, 7, 0, 0, 0, 1, b'A', b'@', b'0'];
    assert_eq!(strict_all(&v8(&[0, 0]), 0), Ok((empty, 0, 8)));
    assert_eq!(strict_all(&old(3, &[0]), 0), read_all(&old(3, &[0])));
    assert_eq!(judged(&[move_to_0(), line(0, b"a"), line(1, b""), line(0, b"")], 0), None);
    let error = [&[0x1f][..], &[9; 20]].concat();
    assert_eq!(judged(&[error, vec![0x11, 7, 0], vec![0x01]], 0), None);
}

#[test]
fn sections_come_after_their_station() {
    let rows: [(&[Vec<u8>], Judged); 10] = [
        (&[label(0, b"a"), xsect(0, b"")], None),
        (&[label(0, b"a"), xsect(1, b"a"), xsect(1, b"a")], None),
        (&[xsect(0, b"a"), label(1, b"a")], Some((18, 0))),
        (&[label(0, b"b"), xsect(1, b"a"), label(1, b"a")], Some((18, 1))),
        (&[label(0, b"a"), label(1, b"b"), xsect(1, b"a"), xsect(1, b"b")], None),
        // A leg's label is no station, nor is a section's.
        (&[move_to_0(), line(0, b"a"), xsect(0, b"")], Some((18, 2))),
        (&[label(0, b"b"), xsect(0, b""), xsect(0, b"b")], Some((18, 2))),
        // A leg between takes nothing back.
        (&[label(0, b"a"), move_to_0(), line(1, b"b"), xsect(1, b"a")], None),
        // Two sections at an unknown station: the first is named.
        (&[label(0, b"a"), xsect(1, b"b"), xsect(0, b"")], Some((18, 1))),
        (&[label(0, b"a"), xsect(0, b""), xsect(1, b"c"), xsect(1, b"d")], Some((18, 2))),
    ];
    for (row, (items, expected)) in rows.into_iter().enumerate() {
        assert_eq!(judged(items, ROOMY), expected, "{row}");
    }
}

#[test]
fn names_are_equal_only_byte_by_byte() {
    let names: [&[u8]; 10] =
        [b"", b"a", b"A", b"a.", b"a.b", b"ab", b"a\0", b"\0", b"a.b.c", b"\xff"];
    for one in names {
        for other in names {
            let section = [label(0, one), xsect(one.len() as u8, other)];
            let expected = (one != other).then_some((18, 1));
            assert_eq!(judged(&section, ROOMY), expected, "{one:?} {other:?}");
            let station = [label(0, one), label_at(one.len() as u8, other, [0, 0, 1])];
            let expected = (one == other).then_some((19, 1));
            assert_eq!(judged(&station, ROOMY), expected, "{one:?} {other:?}");
        }
    }
}

#[test]
fn names_are_full_labels_in_every_version() {
    // The same name by other ways to put it together, and another name by the
    // same appended bytes.
    let items = [label(0, b"a.1"), xsect(2, b".1"), label(1, b"2"), xsect(1, b"1")];
    assert_eq!(judged(&items, ROOMY), None);
    let items = [label(0, b"a.1"), label(1, b"2"), xsect(3, b"b.2")];
    assert_eq!(judged(&items, ROOMY), Some((18, 2)));
    for version in 5..=7 {
        let station = |add: &[u8]| [&[0x40, add.len() as u8], add, &[0; 12]].concat();
        let section = |add: &[u8]| [&[0x30, add.len() as u8], add, &[0; 8]].concat();
        let name = b"a.b.0123456789abcdef";
        // 01 goes back to `a.b.`, 02 to `a.`, 00 to nothing, 1f by 16 bytes.
        for (back, add) in
            [(0x01, &name[4..]), (0x02, &name[2..]), (0x00, name), (0x1f, &name[4..])]
        {
            let good = [&station(name)[..], &[back], &section(add), &[0, 0]].concat();
            let good = old(version, &good);
            assert_eq!(strict_all(&good, 52), read_all(&good));
            assert!(strict_all(&good, 52).is_ok());
            let bad = [&station(name)[..], &[back], &section(&add[1..]), &[0, 0]].concat();
            let place = 28 + station(name).len() + 1;
            assert_eq!(strict_all(&old(version, &bad), 52), Err((18, place)));
        }
        // In these versions a section appends too.
        let twice = [station(b"a"), station(b"a"), section(b"")].concat();
        assert!(strict_all(&old(version, &[&twice[..], &[0, 0]].concat()), 67).is_ok());
        let thrice = [station(b"a"), station(b"a"), section(b"a")].concat();
        let place = 28 + 2 * 15;
        assert_eq!(strict_all(&old(version, &thrice), 67), Err((18, place)));
    }
    // v3 and v4 have stations that may have moved, but no sections.
    for version in 3..=4 {
        let items = [&[0x40, 1, b'a'][..], &[0; 12], &[0x40, 0], &[7; 12], &[0, 0]].concat();
        assert_eq!(strict_all(&old(version, &items), 33), Err((19, 43)));
        assert_eq!(strict_all(&old(version, &items), 32), Err((22, 28)));
        let section = [0x30, 0, 0, 0, 0, 0, 0, 0, 0, 0, 0];
        assert_eq!(strict_all(&old(version, &section), 0), Err((4, 28)));
    }
}

#[test]
fn all_section_codes_are_judged() {
    for version in 5..=8 {
        for code in 0x30..=0x33 {
            let sides = if code < 0x32 { 8 } else { 16 };
            let section = [&[code, 1, b'a'][..], &vec![0; sides]].concat();
            let closed = [&section[..], &[0, 0]].concat();
            let alone = file(version, b"A", b"@0", &closed);
            let place = alone.len() - closed.len();
            assert!(read_all(&alone).is_ok());
            assert_eq!(strict_all(&alone, 99), Err((18, place)), "{version} {code:x}");
        }
    }
}

#[test]
fn stations_stay_where_they_are() {
    let place = [1, -2, 3];
    assert_eq!(judged(&[label_at(0, b"a", place), label_at(0, b"", place)], 33), None);
    for axis in 0..3 {
        for other in [0, 1 << 24, i32::MIN, i32::MAX, place[axis] ^ 1] {
            let mut moved = place;
            moved[axis] = other;
            let items = [
                label_at(0, b"a", place),
                label_at(1, b"b", moved),
                label_at(1, b"a", place),
                label_at(1, b"a", moved),
                label_at(1, b"a", place),
            ];
            assert_eq!(judged(&items, ROOMY), Some((19, 3)), "{axis} {other}");
        }
    }
    // The axes are not to be mixed up.
    let items = [label_at(0, b"a", [1, 2, 3]), label_at(0, b"", [3, 2, 1])];
    assert_eq!(judged(&items, ROOMY), Some((19, 1)));
    // Other flags are no other place, and many names may share one.
    let flags = |flags: u8| item(0x80 | flags, 0, b"", &le(&place));
    let items = [label_at(0, b"a", place), flags(0x7f), flags(0x04), label_at(0, b"b", place)];
    assert_eq!(judged(&items, ROOMY), None);
    // A MOVE or a leg is no station's place.
    let items = [label_at(0, b"a", place), move_to_0(), line(0, b""), label_at(0, b"", place)];
    assert_eq!(judged(&items, ROOMY), None);
}

#[test]
fn the_empty_name_is_a_name() {
    let nothing = [0x00, 0x00];
    let file = |items: &[&[u8]]| v8(&[&items.concat()[..], &nothing].concat());
    let empty = |place| label_at(0, b"", place);
    assert!(strict_all(&file(&[&empty([0; 3])]), 32).is_ok());
    assert_eq!(strict_all(&file(&[&empty([0; 3])]), 31), Err((22, 30)));
    assert_eq!(judged(&[xsect(0, b"")], ROOMY), Some((18, 0)));
    assert_eq!(judged(&[empty([0; 3]), xsect(0, b"")], 32), None);
    assert_eq!(judged(&[empty([0; 3]), empty([0; 3]), empty([0, 0, 1])], 32), Some((19, 2)));
    assert_eq!(judged(&[empty([0; 3]), label(0, b"a"), xsect(1, b"")], 65), None);
    assert_eq!(judged(&[empty([0; 3]), label(0, b"a"), xsect(1, b"")], 64), Some((22, 1)));
    // An anonymous station has a name like any other.
    let anonymous = |place: [i32; 3]| item(0xa0, 0, b"", &le(&place));
    assert_eq!(judged(&[anonymous([0; 3]), anonymous([1; 3])], ROOMY), Some((19, 1)));
    assert_eq!(strict_all(&old(3, &[&[0x40, 0][..], &[0; 12], &[0]].concat()), 31), Err((22, 28)));
}

#[test]
fn room_for_all_different_names_suffices() {
    let names: [&[u8]; 6] = [b"a", b"a.bc", b"", b"xyz", b"a.b", b"x"];
    let mut items = Vec::new();
    let (mut before, mut needed) = (0, 0);
    for (which, name) in names.into_iter().enumerate() {
        items.push(label_at(before, name, [which as i32; 3]));
        // All names so far again, and sections there, take no more.
        before = name.len() as u8;
        for (which, name) in names[..=which].iter().enumerate() {
            items.push(label_at(before, name, [which as i32; 3]));
            items.push(xsect(name.len() as u8, name));
            before = name.len() as u8;
        }
        let fitted = needed;
        needed += name.len() + 32;
        let first = items.len() - 2 * (which + 1) - 1;
        for room in fitted..needed {
            assert_eq!(judged(&items, room), Some((22, first)), "{room}");
        }
        for room in [needed, needed + 1, needed + 31, needed + 1000] {
            assert_eq!(judged(&items, room), None, "{room}");
        }
    }
    assert_eq!(needed, 6 * 32 + 12);
}

#[test]
fn a_name_that_does_not_fit_ends_the_reading() {
    // 35 bytes are left: `abcd` needs 36. A shorter name later on is not tried.
    let items = [label(0, b"a"), label(0, b"bcd"), label(2, b"")];
    assert_eq!(judged(&items, 33 + 35), Some((22, 1)));
    assert_eq!(judged(&items, 33 + 36), Some((22, 2)));
    assert_eq!(judged(&items, 33 + 36 + 34), None);
    // A full index does not matter to names that are in it already.
    let known = [label(0, b"a"), label(0, b""), xsect(0, b""), label_at(0, b"", [1; 3])];
    assert_eq!(judged(&known, 33), Some((19, 3)));
    assert_eq!(judged(&[label(0, b"a"), xsect(0, b"b")], 33), Some((18, 1)));
}

#[test]
fn the_longest_name() {
    let name = [b'x'; 4096];
    let station = [&[0x80, 0, 0, 0xff, 0, 0x10, 0, 0][..], &name, &[0; 12]].concat();
    let again = [&[0x80, 0x11, b'x'][..], &[0; 12]].concat();
    let section = [&[0x30, 0x11, b'x'][..], &[0; 8]].concat();
    let good = v8(&[&station[..], &again, &section, &[0, 0]].concat());
    assert_eq!(strict_all(&good, 4128), read_all(&good));
    assert!(strict_all(&good, 4128).is_ok());
    assert_eq!(strict_all(&good, 4127), Err((22, 30)));
    let other = [&[0x30, 0x11, b'y'][..], &[0; 8]].concat();
    let bad = v8(&[&station[..], &other, &[0, 0]].concat());
    assert_eq!(strict_all(&bad, 4128), Err((18, 30 + station.len())));
    let shorter = [&[0x30, 0x10][..], &[0; 8]].concat();
    let bad = v8(&[&station[..], &shorter, &[0, 0]].concat());
    assert_eq!(strict_all(&bad, 4128), Err((18, 30 + station.len())));
    // A byte more is 7, whether the index has room or not.
    let over = [&[0x80, 0x01, b'x'][..], &[0; 12]].concat();
    let bad = v8(&[&station[..], &over].concat());
    assert_eq!(strict_all(&bad, 4128), Err((7, 30 + station.len())));
}

#[test]
fn other_refusals_of_an_item_come_first() {
    let first = label(0, b"a");
    let long = [&[0x80, 0, 0, 0xff, 0, 0x10, 0, 0], &[b'x'; 4096][..], &[0; 12]].concat();
    let long_section = [&[0x30, 0, 0, 0xff, 0, 0x10, 0, 0], &[b'x'; 4096][..], &[0; 8]].concat();
    // Each would be 18, 19 or 22 but for the refusal it is given.
    let rows: [(&[u8], u8); 9] = [
        (&[0x34, 0x01, b'b', 0, 0, 0, 0, 0, 0, 0, 0], 4),
        (&[0x30, 0x01, b'b', 0, 0, 0, 0, 0, 0, 0], 5),
        (&[0x80, 0x11, b'a', 1, 1, 1, 1, 1, 1, 1, 1, 1, 1, 1], 5),
        (&[0x80, 0x01, b'b', 1], 5),
        (&[0x30, 0x21, b'b', 0, 0, 0, 0, 0, 0, 0, 0], 6),
        (&[0x80, 0x21, b'a', 1, 0, 0, 0, 0, 0, 0, 0, 0, 0, 0, 0], 6),
        (&long, 7),
        (&long_section, 7),
        (&[0x40, 0x11, b'b', 0, 0, 0, 0, 0, 0, 0, 0, 0, 0, 0, 0], 8),
    ];
    for (row, (bad, number)) in rows.into_iter().enumerate() {
        let file = v8(&[&first[..], bad].concat());
        assert_eq!(strict_all(&file, 33), Err((number, 30 + first.len())), "{row}");
        assert_eq!(read_all(&file), Err((number, 30 + first.len())), "{row}");
    }
}

#[test]
fn the_first_refused_item_decides() {
    let (known, unknown) = (label(0, b"a"), xsect(1, b"b"));
    let (moved, other) = (label_at(1, b"a", [1; 3]), label(1, b"c"));
    let (reserved, no_position) = (vec![0x05], line(0, b""));
    let bad_days = vec![0x13, 5, 0, 4, 0];
    let broken = [
        (&unknown, 18),
        (&moved, 19),
        (&other, 22),
        (&reserved, 4),
        (&no_position, 8),
        (&bad_days, 9),
    ];
    for (one, number) in broken {
        for (next, _) in broken {
            let items = [known.clone(), one.clone(), next.clone()];
            assert_eq!(judged(&items, 33), Some((number, 1)));
            let items = [known.clone(), xsect(0, b""), one.clone(), known.clone(), next.clone()];
            assert_eq!(judged(&items, 33), Some((number, 2)));
        }
        // The file need not end, or may go on after its end.
        for rest in [&[][..], &[0], &[0, 0, 0]] {
            let file = v8(&[&known[..], one, rest].concat());
            assert_eq!(strict_all(&file, 33), Err((number, 30 + known.len())));
        }
    }
}

#[test]
fn no_end_then_10_then_11() {
    let known = label(0, b"a");
    let end = 30 + known.len();
    let file = |rest: &[u8]| v8(&[&known[..], rest].concat());
    assert_eq!(strict_all(&file(&[]), 33), Err((5, end)));
    assert_eq!(strict_all(&file(&[0]), 33), Err((5, end + 1)));
    assert_eq!(strict_all(&file(&[0, 0, 0]), 33), Err((10, end + 2)));
    // What stands after the end is no item.
    let section = [&[0, 0], &xsect(1, b"b")[..]].concat();
    assert_eq!(strict_all(&file(&section), 33), Err((10, end + 2)));
    assert_eq!(strict_all(&file(&[0, 0, 0]), 32), Err((22, 30)));
    let unknown = [&xsect(1, b"b")[..], &[0, 0, 0]].concat();
    assert_eq!(strict_all(&file(&unknown), 33), Err((18, end)));
    // 11 comes last, for a file that is good in all else.
    let mut out = [FILLER; 26];
    let mut room = [FILLER; 33];
    let good = file(&[0, 0]);
    assert_eq!(read_strict(&good, &mut out, &mut room), refused(11, 27));
    assert_eq!((out, room), ([FILLER; 26], [0; 33]));
    let mut room = [FILLER; 32];
    assert_eq!(read_strict(&good, &mut [], &mut room), refused(22, 30));
    assert_eq!(room, [0; 32]);
    assert_eq!(read_strict(&file(&unknown), &mut [], &mut [FILLER; 33]), refused(18, end));
    assert_eq!(read_strict(&file(&[0, 0, 0]), &mut [], &mut [FILLER; 33]), refused(10, end + 2));
}

#[test]
fn header_refusals_leave_zeros_too() {
    let rows: [(&[u8], (u8, usize)); 7] = [
        (b"", (1, 0)),
        (b"Survex 3D Image File", (1, 0)),
        (b"Survex 3D Image File\nv9\nA\nT\n", (2, 21)),
        (b"Survex 3D Image File\nv8\nA", (3, 24)),
        (b"Survex 3D Image File\nv8\nA\n@0", (3, 26)),
        (b"Survex 3D Image File\nv8\nA\n@0\n", (3, 29)),
        (b"Survex 3D Image File\nv8\nA\n@0\n\x01\x30\x01b", (4, 29)),
    ];
    for (file, refusal) in rows {
        for room in [0, 1, 100] {
            assert_eq!(strict_all(file, room), Err(refusal));
        }
    }
    let mut large = v8(&[&xsect(0, b"a")[..], &[0, 0]].concat());
    large.resize(16_777_217, 0);
    assert_eq!(strict_all(&large, 100), Err((16, 0)));
    large.pop();
    assert_eq!(strict_all(&large, 100), Err((18, 30)));
}

#[test]
fn the_room_may_hold_anything_before() {
    let items = [label(0, b"a"), label(1, b"b"), xsect(1, b"a"), vec![0, 0]].concat();
    let bad = [label(0, b"a"), label(1, b"b"), xsect(1, b"c"), vec![0, 0]].concat();
    let (good, bad) = (v8(&items), v8(&bad));
    let expected = read_all(&good).unwrap().0;
    // Full of what a name would be, or of what an earlier reading may have had.
    for before in [&b"c"[..], b"a", b"\0", b"c\0\0\0", b"\x01", b"\xff"] {
        for room in [66, 67, 200] {
            let mut room: Vec<u8> = before.iter().copied().cycle().take(room).collect();
            let mut sheet = vec![FILLER; expected.len()];
            let filled = room.clone();
            let answer = read_strict(&good, &mut sheet, &mut room);
            assert!(matches!(answer, Answer::Done { records: 3, .. }));
            assert_eq!(sheet, expected);
            assert!(room.iter().all(|&byte| byte == 0));
            room.copy_from_slice(&filled);
            let place = 30 + 2 * label(0, b"a").len();
            assert_eq!(read_strict(&bad, &mut sheet, &mut room), refused(18, place));
            assert!(room.iter().all(|&byte| byte == 0));
            assert_eq!(sheet, expected);
        }
    }
}

/// The name and coordinates of a station record with its length bytes.
fn station_of(record: &[u8]) -> Option<(&[u8], &[u8])> {
    (record[2] == 2).then(|| (&record[16..], &record[4..16]))
}

/// The name of a section record with its length bytes.
fn section_of(record: &[u8]) -> Option<&[u8]> {
    (record[2] == 3).then(|| &record[25..])
}

/// The first record that strict reading refuses, "as a search through all
/// earlier station records would" find it.
fn searched(records: &[Vec<u8>], room: usize) -> Option<(u8, usize)> {
    let mut left = room;
    for (number, record) in records.iter().enumerate() {
        let stations = || records[..number].iter().filter_map(|record| station_of(record));
        if let Some(name) = section_of(record) {
            if !stations().any(|(earlier, _)| earlier == name) {
                return Some((18, number));
            }
        }
        let Some((name, at)) = station_of(record) else { continue };
        if stations().any(|(earlier, place)| earlier == name && place != at) {
            return Some((19, number));
        }
        if !stations().any(|(earlier, _)| earlier == name) {
            let Some(after) = left.checked_sub(name.len() + 32) else { return Some((22, number)) };
            left = after;
        }
    }
    None
}

/// The room that all different names take.
fn needed(records: &[Vec<u8>]) -> usize {
    let mut names: Vec<&[u8]> = records.iter().filter_map(|r| Some(station_of(r)?.0)).collect();
    names.sort_unstable();
    names.dedup();
    names.iter().map(|name| name.len() + 32).sum()
}

/// Records whose stations and sections share a few names, the stations mostly
/// with one place each.
fn shared_names(rng: &mut Rng, version: u8) -> Vec<Rec> {
    let mut names = vec![Vec::new()];
    for _ in 0..1 + rng.below(4) {
        names.push(made::label(rng, b"a.b"));
    }
    let mut all = Vec::new();
    for (which, name) in names.iter().enumerate() {
        if !rng.chance(4) {
            all.push(Rec::Station { flags: 0, at: [which as i32; 3], label: name.clone() });
        }
    }
    all.extend(records(rng, version));
    for record in &mut all {
        let which = rng.below(names.len());
        match record {
            Rec::Station { at, label, .. } => {
                *label = names[which].clone();
                if !rng.chance(10) {
                    *at = [which as i32; 3];
                }
            }
            Rec::Section { label, .. } if !rng.chance(10) => *label = names[which].clone(),
            _ => {}
        }
    }
    all
}

fn some_room(rng: &mut Rng, needed: usize) -> usize {
    match rng.below(6) {
        0 => rng.below(needed + 1),
        1 => needed.saturating_sub(1),
        2 => needed + rng.below(100),
        _ => needed,
    }
}

#[test]
fn made_files_are_judged_as_searched() {
    let mut rng = Rng(0x0108_57a7);
    let mut seen = [0; 23];
    for round in 0..12_000 {
        let version = 3 + (round % 6) as u8;
        let records = shared_names(&mut rng, version);
        let (items, begins) = placed(&mut rng, version, &records);
        let coded = file(version, b"A", b"@0", &items);
        let all: Vec<Vec<u8>> = records.iter().map(Rec::bytes).collect();
        let room = some_room(&mut rng, needed(&all));
        let strict = strict_all(&coded, room);
        match searched(&all, room) {
            None => {
                assert_eq!(strict, Ok((sheet(&records), records.len(), version)), "{round}");
                seen[0] += 1;
            }
            Some((number, record)) => {
                let place = coded.len() - items.len() + begins[record];
                assert_eq!(strict, Err((number, place)), "{round}");
                seen[usize::from(number)] += 1;
            }
        }
    }
    assert!([0, 18, 19, 22].iter().all(|&number| seen[number] > 500), "{seen:?}");
}

/// The records made before the end or the first refusal of ordinary reading.
fn records_before(file: &[u8]) -> Vec<Vec<u8>> {
    let (mut stepper, _) = open(file);
    let mut records = Vec::new();
    loop {
        let mut buffer = vec![FILLER; 4130];
        match stepper.step(&mut buffer) {
            Step::Record { bytes, .. } => records.push(buffer[..bytes].to_vec()),
            Step::Nothing => {}
            Step::End | Step::Refused { .. } => return records,
        }
    }
}

#[test]
fn spoiled_files_are_judged_as_searched() {
    let mut rng = Rng(0x0108_5bad);
    let mut seen = [0; 23];
    for round in 0..24_000 {
        let version = 3 + (round % 6) as u8;
        let records = shared_names(&mut rng, version);
        let mut spoiled = file(version, b"A", b"@0", &items(&mut rng, version, &records));
        spoil_file(&mut rng, &mut spoiled);
        let before = records_before(&spoiled);
        let room = some_room(&mut rng, needed(&before));
        let strict = strict_all(&spoiled, room);
        match searched(&before, room) {
            // Nothing to refuse, so it must be read as ever.
            None => assert_eq!(strict, read_all(&spoiled), "{round}"),
            Some((number, record)) => {
                let Err((given, place)) = strict else { panic!("{round} {number}") };
                assert_eq!(given, number, "{round}");
                let mut kept = vec![FILLER; 100_000];
                let cut = salvage(&spoiled[..place], &mut kept);
                let Salvaged::Saved { records, number: 5, place: end, .. } = cut else {
                    panic!("{round} {cut:?}")
                };
                assert_eq!((records, end), (record, place), "{round}");
            }
        }
        seen[usize::from(strict.map_or_else(|(number, _)| number, |_| 0))] += 1;
    }
    let numbers = [0, 1, 2, 3, 4, 5, 6, 7, 8, 9, 10, 18, 19, 22];
    assert!(numbers.iter().all(|&number| seen[number] > 0), "{seen:?}");
}

#[test]
fn many_names() {
    let names: Vec<Vec<u8>> = (0..30_000).map(|n| format!("a.{n}").into_bytes()).collect();
    let at = |which: usize| [which as i32, 0, -1];
    let station = |(which, name): (usize, &Vec<u8>)| Rec::Station {
        flags: 0,
        at: at(which),
        label: name.clone(),
    };
    let mut records: Vec<Rec> = names.iter().enumerate().map(station).collect();
    records.extend(names.iter().rev().map(|name| section([0; 4], name)));
    records.extend(names.iter().enumerate().rev().map(station));
    let (sheet, mut file) = (sheet(&records), vec![0; 10_000_000]);
    let Answer::Done { bytes, .. } = write(&sheet, &mut file) else { panic!("refused") };
    file.truncate(bytes);
    let needed = names.iter().map(|name| name.len() + 32).sum::<usize>();
    let (mut out, mut room) = (vec![FILLER; sheet.len()], vec![FILLER; needed]);
    let done = Answer::Done { bytes: sheet.len(), records: 90_000, version: 8 };
    assert_eq!(read_strict(&file, &mut out, &mut room), done);
    assert_eq!(out, sheet);
    assert!(room.iter().all(|&byte| byte == 0));
    // One byte less, and the last different name does not fit.
    let Answer::Refused { number: 22, place } = read_strict(&file, &mut [], &mut room[1..]) else {
        panic!("no 22")
    };
    let saved = salvage(&file[..place], &mut out);
    assert!(matches!(saved, Salvaged::Saved { records: 29_999, place: end, .. } if end == place));
    // The very last station moved.
    let end = file.len() - 2;
    file[end - 1] ^= 1;
    assert_eq!(read_strict(&file, &mut [], &mut room), refused(19, end - 15));
}

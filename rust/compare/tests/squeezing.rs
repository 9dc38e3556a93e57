//! Squeezing, reading a v8 file and writing it again: no file gets longer (#105). That is
//! proved of the definitions; here it is seen of files by another writer, and of what such a
//! writer may say in more bytes.

use compare::{files_wanted, hex, seed};
use generate::coder::{Coder, Form};
use generate::files::{fixed, round};
use std::fs;
use std::path::Path;

/// The squeezed file, of a buffer as long as the file itself: it reads as the same sheet, and
/// squeezing it again changes nothing.
fn squeezed(file: &[u8]) -> Vec<u8> {
    let mut sheet = cockledrift::read_vec(file).expect("a file that reads");
    let was = sheet.clone();
    let mut out = vec![0xa5; file.len()];
    let done = cockledrift::convert(file, &mut sheet, &mut out)
        .unwrap_or_else(|refusal| panic!("{refusal:?} for {}", hex(file)));
    out.truncate(done.bytes);
    assert!(sheet == was && cockledrift::read_vec(&out) == Ok(was), "{}", hex(file));
    assert!(cockledrift::write_vec(&sheet) == Ok(out.clone()), "{}", hex(file));
    out
}

/// The v8 files in testdata, all made by Survex's cavern and extend: their bytes, and those of
/// the squeezed file (the table in docs/SURVEX.md).
#[test]
fn files_of_survex_do_not_grow() {
    let folder = Path::new(env!("CARGO_MANIFEST_DIR")).join("../testdata");
    let table = [
        ("anon.v8.3d", 432, 432),
        ("extended.v8.3d", 658, 541),
        ("loops.v8.3d", 609, 570),
        ("nested.v8.3d", 3994, 3994),
        ("passage.v8.3d", 641, 640),
        ("departures/dates.v8.3d", 428, 427),
    ];
    for (name, bytes, due) in table {
        let file = fs::read(folder.join(name)).expect("a file of testdata");
        assert_eq!((file.len(), squeezed(&file).len()), (bytes, due), "{name}");
    }
}

/// Generated v8 files that read, damaged ones among them: a file buffer as long as the file
/// always suffices.
#[test]
fn generated_files_do_not_grow() {
    let (mut seen, mut shorter) = (0, 0);
    // Every sixth round is of v8.
    let rounds = (0..).flat_map(|number| round(seed(), 6 * number + 5));
    for (_, file) in fixed().chain(rounds) {
        if file.get(22) != Some(&b'8') || cockledrift::read_vec(&file).is_err() {
            continue;
        }
        seen += 1;
        shorter += usize::from(squeezed(&file).len() < file.len());
        if seen >= files_wanted() / 10 {
            break;
        }
    }
    println!("v8 files squeezed: {seen}, of them shorter: {shorter}");
    assert!(0 < shorter && shorter < seen);
}

/// A file of these items, closed.
fn file(items: impl Fn(&mut Coder)) -> Vec<u8> {
    let mut file = Coder::short(8);
    items(&mut file);
    file.close();
    file.bytes
}

const HERE: [i32; 3] = [0; 3];
const SIDES: [i32; 4] = [1, -1, 32767, -32768];
const NAME: (usize, &[u8], Form) = (0, b"a.1", Form::Least);

/// What another writer may say in more bytes, and how many of them squeezing saves.
#[test]
fn what_squeezing_saves() {
    type Items = fn(&mut Coder);
    let table: [(&str, usize, Items); 16] = [
        ("nothing to save", 0, |file| {
            file.style(0).day(9).move_to(HERE).leg(0, NAME, HERE).leg_there(0, HERE);
        }),
        ("D = A = 1 for a leg with the same label", 2, |file| {
            file.move_to(HERE).leg(0, NAME, HERE).leg(0, (1, b"1", Form::Least), HERE);
        }),
        ("00 00 00 for a leg with the same label", 3, |file| {
            file.move_to(HERE).leg(0, NAME, HERE).leg(0, (0, b"", Form::Least), HERE);
        }),
        ("00 00 00 for a station with the same label", 1, |file| {
            file.station(0, NAME, HERE).station(0, (0, b"", Form::Least), HERE);
        }),
        ("a date that does not differ", 3, |file| {
            file.day(9).move_to(HERE).leg(0, NAME, HERE).day(9).leg_there(0, HERE);
        }),
        ("13 for a range that 12 can say", 1, |file| {
            file.two_days(9, 264).section(0, NAME, SIDES, true);
        }),
        ("13 for a longer range", 0, |file| {
            file.two_days(9, 265).section(0, NAME, SIDES, true);
        }),
        ("a range of equal days", 1, |file| {
            file.span(9, 0).section(0, NAME, SIDES, true);
        }),
        ("a date before a station", 3, |file| {
            file.day(9).station(0, NAME, HERE);
        }),
        ("i32 for dimensions that fit i16", 8, |file| {
            file.section(0, NAME, SIDES, false);
        }),
        ("a style that does not differ", 1, |file| {
            file.style(3).move_to(HERE).leg(0, NAME, HERE).style(3).leg_there(0, HERE);
        }),
        ("a MOVE to where the last leg ended", 13, |file| {
            file.move_to(HERE).leg(0, NAME, HERE).move_to(HERE).leg_there(0, HERE);
        }),
        ("a MOVE that another follows", 13, |file| {
            file.move_to([1; 3]).move_to(HERE).leg(0, NAME, HERE);
        }),
        ("the 00 form for short numbers", 2, |file| {
            file.station(0, (0, b"a.1", Form::Middle), HERE);
        }),
        ("five bytes for each number", 10, |file| {
            file.station(0, (0, b"a.1", Form::Longest), HERE);
        }),
        ("a common start dropped and appended again", 2, |file| {
            file.station(0, NAME, HERE).station(0, (3, b"a.2", Form::Least), HERE);
        }),
    ];
    for (name, due, items) in table {
        let file = file(items);
        assert_eq!(file.len() - squeezed(&file).len(), due, "{name}");
    }
}

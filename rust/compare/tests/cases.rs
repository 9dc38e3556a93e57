//! The cases at the edges of document 01, 1 to 13, for both implementations.

use compare::{disagree, hex};
use generate::coder::{Coder, Form, Head};
use generate::record::{section, station, with_short_header, UNDATED};
use second::{Answer, Later};

const ZERO: [i32; 3] = [0; 3];

/// Both read the file alike; the sheet, or the refusal.
fn read(file: &[u8]) -> Result<Vec<u8>, (u8, usize)> {
    match compare::read(file) {
        Err(difference) => disagree("reading", file, &difference),
        Ok(Answer::Refused { number, place }) => Err((number, place)),
        Ok(Answer::Done { .. }) => Ok(cockledrift::read_vec(file).expect("a sheet")),
    }
}

/// Both write the sheet alike; the file.
fn write(sheet: &[u8]) -> Vec<u8> {
    match compare::write(sheet) {
        Err(difference) => disagree("writing", sheet, &difference),
        Ok(Answer::Refused { number, place }) => panic!("refused {number} at {place}"),
        Ok(Answer::Done { .. }) => cockledrift::write_vec(sheet).expect("a file"),
    }
}

/// Case 3's header, `T` for the time line; items begin at 28.
fn old(version: u8, items: &[u8]) -> Vec<u8> {
    [&Head { time: b"T", ..Head::short(version) }.bytes()[..], items].concat()
}

/// Case 1's header; items begin at 30.
fn v8(items: &[u8]) -> Vec<u8> {
    [&Head::short(8).bytes()[..], items].concat()
}

#[test]
fn case_1() {
    let file = v8(&[0, 0]);
    assert_eq!(file.len(), 32);
    let sheet = read(&file).unwrap();
    assert_eq!(hex(&sheet), "02000700000001414030");
    assert_eq!(write(&sheet), file);
}

#[test]
fn case_2() {
    assert_eq!(read(&v8(&[0])), Err((5, 31)));
    assert_eq!(read(&v8(&[0, 0, 0])), Err((10, 32)));
}

#[test]
fn case_3() {
    let file = old(3, &[0]);
    assert_eq!(file.len(), 29);
    assert_eq!(hex(&read(&file).unwrap()), "020006000000014154");
}

/// The label after a station with this label and then one code, or 6.
fn after(version: u8, label: &[u8], code: u8) -> Result<Vec<u8>, (u8, usize)> {
    let mut coder = Coder::short(version);
    coder.station(0, (0, label, Form::Least), ZERO).item(code, &[]);
    coder.station(0, (0, b"", Form::Least), ZERO).item(0, &[]).item(0, &[]);
    let place = coder.items[1];
    let sheet = read(&coder.bytes).inspect_err(|refusal| assert_eq!(refusal.1, place))?;
    // Two stations of 16 bytes and their labels.
    Ok(sheet[10 + 16 + label.len() + 16..].to_vec())
}

#[test]
fn case_4() {
    for version in 3..=7 {
        let dots = |code| after(version, b"a.b.0123456789abcdef", code).map_err(|no| no.0);
        assert_eq!(dots(1), Ok(b"a.b.".to_vec()));
        assert_eq!(dots(2), Ok(b"a.".to_vec()));
        assert_eq!(dots(3), Err(6));
    }
}

#[test]
fn case_5() {
    for version in 3..=7 {
        let drop = |label: &[u8]| after(version, label, 0x1f).map_err(|no| no.0);
        assert_eq!(drop(b"0123456789abcdefg"), Ok(b"0".to_vec()));
        assert_eq!(drop(b"0123456789abcdef"), Err(6));
    }
}

/// Date kind and days of a leg after these items.
fn dated(version: u8, date: &[u8]) -> Result<(u8, u16, u16), (u8, usize)> {
    let items = [date, &[0x0f], &[0; 12], &[0x80, 0], &[0; 13]].concat();
    let sheet = read(&old(version, &items))?;
    let day = |place: usize| u16::from_be_bytes([sheet[place], sheet[place + 1]]);
    Ok((sheet[14], day(15), day(17)))
}

#[test]
fn case_6() {
    assert_eq!(dated(7, &[0x21, 0xff, 0xff, 0]), Ok((1, 65535, 0)));
    assert_eq!(dated(7, &[0x21, 0xff, 0xff, 1]), Err((9, 28)));
}

#[test]
fn case_7() {
    for version in 4..=6 {
        let seconds =
            |seconds: u32| dated(version, &[&[0x20], &seconds.to_le_bytes()[..]].concat());
        assert_eq!(seconds(0), Ok((1, 25567, 0)));
        assert_eq!(seconds(3453321599), Ok((1, 65535, 0)));
        assert_eq!(seconds(3453321600), Err((9, 28)));
    }
}

#[test]
fn case_8() {
    let codes = |length: usize| {
        let file = write(&with_short_header(&[station(0, ZERO, &vec![b'x'; length])]));
        hex(&file[31..file.len() - 14 - length])
    };
    assert_eq!(codes(15), "0f");
    assert_eq!(codes(16), "000010");
    assert_eq!(codes(255), "0000ffff000000");
}

#[test]
fn case_9() {
    for version in 3..=8 {
        let labelled = |length: usize| {
            let mut coder = Coder::short(version);
            coder.station(0, (0, &vec![b'x'; length], Form::Least), ZERO).close();
            read(&coder.bytes).map(|sheet| sheet.len()).map_err(|no| (no.0, no.1 == coder.items[0]))
        };
        assert_eq!(labelled(4096), Ok(10 + 16 + 4096));
        assert_eq!(labelled(4097), Err((7, true)));
    }
}

#[test]
fn case_10() {
    let codes = |sides| {
        let file = write(&with_short_header(&[section(0, UNDATED, sides, b"")]));
        hex(&file[30..file.len() - 2])
    };
    assert_eq!(codes([32767; 4]), "30000000ff7fff7fff7fff7f");
    let wide = "32000000ff7f0000ff7f000000800000ff7f0000";
    assert_eq!(codes([32767, 32767, 32768, 32767]), wide);
}

#[test]
fn case_11() {
    assert_eq!(read(&old(7, &[&[0x60, 0][..], &[0; 13]].concat())), Err((4, 28)));
    let anonymous = v8(&[&[0xa0, 1, b'x'][..], &[0; 14]].concat());
    assert_eq!(read(&anonymous), Ok(with_short_header(&[station(0x20, ZERO, b"x")])));
}

#[test]
fn case_12() {
    assert_eq!(read(&v8(&[&[0x40, 0x20][..], &[0; 12]].concat())), Err((6, 30)));
}

#[test]
fn case_13() {
    let timed = |version, time: &[u8]| Head { time, ..Head::short(version) }.bytes();
    let plain = timed(8, b"@1016373667");
    for text in [&b"Sun,2002.03.17 14:01:07 GMT"[..], b"Sun,2002.03.17 14:01:07 UTC"] {
        let text = timed(3, text);
        assert_eq!(compare::later(&text, &plain), Ok((Later::Same, &[][..])));
        assert_eq!(compare::later(&plain, &text), Ok((Later::Same, &[][..])));
    }
    // #101: "case 13's `BST` line now gives 17".
    let summer = timed(3, b"Sun,2002.03.17 14:01:07 BST");
    let refused = |file| Ok((Later::Refused { file, number: 17, place: 26 }, &[][..]));
    assert_eq!(compare::later(&summer, &plain), refused(1));
    assert_eq!(compare::later(&plain, &summer), refused(2));
    let next = timed(7, b"@1016373668");
    assert_eq!(compare::later(&plain, &next), Ok((Later::Second, &b"@1016373668"[..])));
}

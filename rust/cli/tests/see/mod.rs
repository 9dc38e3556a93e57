//! Pictures and pages taken apart, and a browser to try them in.
#![allow(dead_code)]

pub mod browser;
pub mod json;
pub mod xml;

use cockledrift::{Point, Record, Sheet};
use std::fs;
use std::path::Path;

/// A file's sheet.
pub fn sheet(path: &Path) -> Sheet {
    Sheet::read(&fs::read(path).expect("a file")).expect("a good file")
}

/// The legs of a sheet: flags and both ends.
pub fn legs(sheet: &Sheet) -> Vec<(u8, Point, Point)> {
    let leg = |record| match record {
        Record::Leg(leg) => Some((leg.flags, leg.from, leg.to)),
        _ => None,
    };
    sheet.records().filter_map(leg).collect()
}

/// The bytes of a text of 64 letters.
pub fn unpacked(text: &str) -> Vec<u8> {
    const LETTERS: &str = "ABCDEFGHIJKLMNOPQRSTUVWXYZabcdefghijklmnopqrstuvwxyz0123456789+/";
    let (mut bytes, mut bits, mut held) = (Vec::new(), 0, 0);
    for letter in text.trim_end_matches('=').chars() {
        bits = bits << 6 | LETTERS.find(letter).expect("a letter of the 64") as u32;
        held += 6;
        if held >= 8 {
            held -= 8;
            bytes.push((bits >> held) as u8);
            bits &= (1 << held) - 1;
        }
    }
    bytes
}

/// A v8 file with this title, and stations of these names a metre apart, a leg
/// between each two.
pub fn made(title: &[u8], names: &[&[u8]]) -> Vec<u8> {
    let mut file = b"Survex 3D Image File\nv8\n".to_vec();
    file.extend(title);
    file.extend(b"\n@1000000000\n\0");
    file.extend([0x0f]);
    file.extend([0; 12]);
    let number = |file: &mut Vec<u8>, x: i32| {
        file.extend(x.to_le_bytes());
        file.extend([0; 8]);
    };
    for at in 1..names.len() {
        file.push(0x40 | 0x20);
        number(&mut file, 100 * at as i32);
    }
    let mut last = 0;
    for (at, name) in names.iter().enumerate() {
        file.extend([0x82, 0, last as u8, name.len() as u8]);
        file.extend(*name);
        number(&mut file, 100 * at as i32);
        last = name.len();
    }
    file.extend([0, 0]);
    file
}

//! Records as lines of text: those of document 01's lister.

#![forbid(unsafe_code)]

use crate::record::{Parts, Place};
use crate::{Date, Record};
use std::str::{FromStr, Split};

/// The first words of lines, by the kind of the record.
const KINDS: [&str; 4] = ["leg", "station", "xsect", "error"];

/// Bytes as one word of text, with nothing lost: those outside 33 to 126, and `%`,
/// are `%` and two hex digits; no bytes are `-`, and a single `-` is `%2d`.
///
/// ```
/// assert_eq!(cockledrift::text(b"a b%"), "a%20b%25");
/// assert_eq!((&cockledrift::text(b"")[..], &cockledrift::text(b"-")[..]), ("-", "%2d"));
/// ```
pub fn text(bytes: &[u8]) -> String {
    match bytes {
        b"" => "-".into(),
        b"-" => "%2d".into(),
        _ => escaped(bytes),
    }
}

fn escaped(bytes: &[u8]) -> String {
    const DIGITS: &[u8; 16] = b"0123456789abcdef";
    let mut text = String::with_capacity(bytes.len());
    for &byte in bytes {
        match byte {
            33..=126 if byte != b'%' => text.push(char::from(byte)),
            _ => text.extend(
                [b'%', DIGITS[usize::from(byte >> 4)], DIGITS[usize::from(byte & 15)]]
                    .map(char::from),
            ),
        }
    }
    text
}

/// The bytes of such a word.
fn bytes(text: &str) -> Option<Vec<u8>> {
    if text == "-" {
        return Some(Vec::new());
    }
    let mut parts = text.split('%');
    let mut bytes = parts.next()?.as_bytes().to_vec();
    for part in parts {
        let digits = part.get(..2).filter(|two| two.bytes().all(|one| one.is_ascii_hexdigit()))?;
        bytes.push(u8::from_str_radix(digits, 16).ok()?);
        bytes.extend(&part.as_bytes()[2..]);
    }
    Some(bytes)
}

/// The words of a line, taken from the front; a label is put into a buffer.
struct Words<'t, 's> {
    words: Split<'t, char>,
    label: Option<&'s mut Vec<u8>>,
}

/// A number in digits, with no plus sign.
fn number<N: FromStr>(word: &str) -> Option<N> {
    word.parse().ok().filter(|_| !word.starts_with('+'))
}

impl<'s> Parts<'s> for Words<'_, 's> {
    fn byte(&mut self) -> Option<u8> {
        number(self.words.next()?)
    }

    fn numbers<const N: usize>(&mut self) -> Option<[i32; N]> {
        let mut numbers = [0; N];
        for place in &mut numbers {
            *place = number(self.words.next()?)?;
        }
        Some(numbers)
    }

    fn date(&mut self) -> Option<Date> {
        let word = self.words.next()?;
        match word.split_once('-') {
            _ if word == "none" => Some(Date::None),
            None => number(word).map(Date::Day),
            Some((first, last)) => Some(Date::Range(number(first)?, number(last)?)),
        }
    }

    fn label(&mut self) -> Option<&'s [u8]> {
        let label = self.label.take()?;
        *label = bytes(self.words.next()?)?;
        Some(label)
    }
}

/// A line in the making.
struct Line(String);

impl Line {
    fn word(&mut self, word: &str) {
        self.0.push(' ');
        self.0 += word;
    }
}

impl Place for Line {
    fn byte(&mut self, byte: u8) {
        self.word(&byte.to_string());
    }

    fn numbers<const N: usize>(&mut self, numbers: [i32; N]) {
        numbers.iter().for_each(|number| self.word(&number.to_string()));
    }

    fn date(&mut self, date: Date) {
        match date {
            Date::None => self.word("none"),
            Date::Day(day) => self.word(&day.to_string()),
            Date::Range(day, last) => self.word(&format!("{day}-{last}")),
        }
    }

    fn label(&mut self, label: &[u8]) {
        self.word(&text(label));
    }
}

impl<'s> Record<'s> {
    /// The record as a line of document 01's lister.
    ///
    /// ```
    /// use cockledrift::{Point, Record, Station};
    /// let at = Point { x: 100, y: 0, z: -1 };
    /// let station = Record::Station(Station { flags: 2, at, label: b"a.2" });
    /// assert_eq!(station.line(), "station 2 100 0 -1 a.2");
    /// ```
    pub fn line(&self) -> String {
        let mut line = Line(KINDS[usize::from(self.kind()) - 1].into());
        self.put(&mut line);
        line.0
    }

    /// The record of such a line, with its label in the lent buffer; none where it
    /// is no such line. Whether a sheet can hold the record the library says.
    ///
    /// ```
    /// use cockledrift::Record;
    /// let mut label = Vec::new();
    /// let record = Record::of_line("xsect 0 none -1 10 20 -1 a%20b", &mut label).expect("a line");
    /// assert_eq!((record.label(), &record.line()[..]), (&b"a b"[..], "xsect 0 none -1 10 20 -1 a%20b"));
    /// assert_eq!(Record::of_line("station 0 1 2 a", &mut label), None);
    /// ```
    pub fn of_line(line: &str, label: &'s mut Vec<u8>) -> Option<Record<'s>> {
        let mut words = Words { words: line.split(' '), label: Some(label) };
        let first = words.words.next()?;
        let kind = (1..).zip(KINDS).find(|(_, word)| *word == first)?.0;
        let record = Record::taken(kind, &mut words)?;
        words.words.next().is_none().then_some(record)
    }
}

//! What `dump3d -d` says of a file, and what a sheet says, in the same words.

use std::collections::VecDeque;

/// A header and records, one text for each.
pub struct Told {
    pub head: Vec<String>,
    pub lines: Vec<String>,
}

/// dump3d's text, its MOVEs turned into the start of the next leg and its
/// metres into centimetres.
pub fn said(text: &str) -> Told {
    let mut told = Told { head: Vec::new(), lines: Vec::new() };
    let mut extended = false;
    let mut position = String::new();
    for line in text.lines() {
        let (word, rest) = line.split_once(' ').unwrap_or((line, ""));
        match word {
            "TITLE" | "DATE" | "VERSION" => told.head.push(format!("{word} {rest}")),
            "EXTENDED" => extended = true,
            "MOVE" => position = numbers(rest),
            "LINE" => {
                let (place, more) = rest.split_once(" [").expect("a label");
                let to = numbers(place);
                told.lines.push(leg_said(&position, &to, more));
                position = to;
            }
            "NODE" => told.lines.push(node_said(rest)),
            "XSECT" => told.lines.push(section_said(rest)),
            "XSECT_END" => told.lines.last_mut().expect("a section").push_str(" last"),
            "ERROR_INFO" => told.lines.push(error_said(rest)),
            // The coordinate system stands in the title, after a zero byte.
            "CS" | "DATE_NUMERIC" | "SEPARATOR" | "--" | "STOP" => {}
            _ => panic!("what is {line}?"),
        }
    }
    told.head.push(format!("extended {extended}"));
    told
}

/// Metres with two decimals to centimetres.
fn numbers(metres: &str) -> String {
    let cm = metres.split(' ').map(|metre| metre.replacen('.', "", 1).parse::<i32>().unwrap());
    join(cm)
}

fn join(numbers: impl Iterator<Item = i32>) -> String {
    numbers.map(|number| number.to_string()).collect::<Vec<_>>().join(" ")
}

/// `more` is the label, a bracket, and then style, flags and date.
fn leg_said(from: &str, to: &str, more: &str) -> String {
    let (label, more) = more.split_once(']').expect("a bracket");
    let mut words: VecDeque<_> = more.split_whitespace().collect();
    let style = words.front().and_then(|word| word.strip_prefix("STYLE="));
    let style = style.unwrap_or("NONE").to_string();
    words.retain(|word| !word.starts_with("STYLE="));
    let date = match words.back() {
        Some(word) if word.starts_with(|first: char| first.is_ascii_digit()) => words.pop_back(),
        _ => None,
    };
    let flags = Vec::from(words).join(" ");
    format!("leg {from} to {to} [{label}] {style} ({flags}) {}", date.unwrap_or("undated"))
}

fn node_said(rest: &str) -> String {
    let (place, more) = rest.split_once(" [").expect("a label");
    let (label, flags) = more.split_once(']').expect("a bracket");
    format!("station {} [{label}] ({})", numbers(place), flags.trim())
}

fn section_said(rest: &str) -> String {
    let (sides, more) = rest.split_once(" [").expect("a label");
    let (label, date) = more.split_once(']').expect("a bracket");
    let date = if date.is_empty() { "undated" } else { date.trim() };
    format!("section {} [{label}] {date}", numbers(sides))
}

/// `#legs 1, len 10.30m, E 4.74 H 6.22 V 0.43`
fn error_said(rest: &str) -> String {
    let words: Vec<_> = rest.split([' ', ',']).filter(|word| !word.is_empty()).collect();
    let length = words[3].trim_end_matches('m');
    format!("error {} {}", words[1], numbers(&[length, words[5], words[7], words[9]].join(" ")))
}

/// The sheet in the same words.
pub fn told(sheet: &[u8], version: u8) -> Told {
    let mut rest = &sheet[1..];
    let head = head_told(take_record(&mut rest), version);
    let mut lines = Vec::new();
    while !rest.is_empty() {
        lines.push(record_told(take_record(&mut rest), version));
    }
    Told { head, lines }
}

fn take_record<'a>(rest: &mut &'a [u8]) -> &'a [u8] {
    let (length, after) = rest.split_first_chunk().unwrap();
    let (record, after) = after.split_at(usize::from(u16::from_be_bytes(*length)));
    *rest = after;
    record
}

/// dump3d takes a title up to its first zero byte.
fn head_told(record: &[u8], version: u8) -> Vec<String> {
    let length = usize::from(u16::from_be_bytes([record[2], record[3]]));
    let (title, time) = record[4..].split_at(length);
    let title = text(title.split(|&byte| byte == 0).next().unwrap());
    vec![
        format!("TITLE \"{title}\""),
        format!("DATE \"{}\"", text(time)),
        format!("VERSION {version}"),
        format!("extended {}", record[1] == 1),
    ]
}

fn text(bytes: &[u8]) -> String {
    String::from_utf8(bytes.to_vec()).unwrap()
}

/// The record's numbers from `place` on, as big-endian i32.
fn row(record: &[u8], place: usize, count: usize) -> String {
    join(record[place..].as_chunks::<4>().0[..count].iter().map(|four| i32::from_be_bytes(*four)))
}

const LEG_FLAGS: [&str; 3] = ["SURFACE", "DUPLICATE", "SPLAY"];
const STATION_FLAGS: [&str; 7] =
    ["SURFACE", "UNDERGROUND", "ENTRANCE", "EXPORTED", "FIXED", "ANON", "WALL"];
const STYLES: [&str; 6] = ["NORMAL", "DIVING", "CARTESIAN", "CYLPOLAR", "NOSURVEY", "NONE"];

fn flags(byte: u8, names: &[&str]) -> String {
    let set = names.iter().enumerate().filter(|(bit, _)| byte >> bit & 1 == 1);
    set.map(|(_, name)| *name).collect::<Vec<_>>().join(" ")
}

fn record_told(record: &[u8], version: u8) -> String {
    match record[0] {
        1 => leg_told(record, version),
        2 => {
            let flags = flags(record[1], &STATION_FLAGS);
            format!("station {} [{}] ({flags})", row(record, 2, 3), text(&record[14..]))
        }
        3 => {
            let last = if record[1] == 1 { " last" } else { "" };
            let date = date_told(&record[2..7]);
            format!("section {} [{}] {date}{last}", row(record, 7, 4), text(&record[23..]))
        }
        4 => format!("error {}", row(record, 1, 5)),
        kind => panic!("no record is of kind {kind}"),
    }
}

fn leg_told(record: &[u8], version: u8) -> String {
    let style = STYLES[usize::from(record[2])];
    assert!(version == 8 || style == "NONE");
    let flags = flags(record[1], &LEG_FLAGS);
    let (from, to) = (row(record, 8, 3), row(record, 20, 3));
    let date = date_told(&record[3..8]);
    format!("leg {from} to {to} [{}] {style} ({flags}) {date}", text(&record[32..]))
}

fn date_told(date: &[u8]) -> String {
    let day =
        |place: usize| calendar(u32::from(u16::from_be_bytes([date[place], date[place + 1]])));
    match date[0] {
        0 => "undated".to_string(),
        1 => day(1),
        _ => format!("{}-{}", day(1), day(3)),
    }
}

/// Days since 1 January 1900 as `YYYY.MM.DD`. 1900 was no leap year.
fn calendar(mut days: u32) -> String {
    let (mut year, mut month) = (1900, 1);
    while days >= generate::times::month_days(year, month) {
        days -= generate::times::month_days(year, month);
        (year, month) = if month == 12 { (year + 1, 1) } else { (year, month + 1) };
    }
    format!("{year}.{month:02}.{:02}", days + 1)
}

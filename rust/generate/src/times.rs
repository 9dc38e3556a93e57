//! Time lines, and files that have them.

use crate::coder::Head;
use crate::rng::Rng;

/// A moment in the text form.
#[derive(Clone, Copy)]
pub struct Moment {
    pub year: u32,
    pub month: u32,
    pub day: u32,
    pub hour: u32,
    pub minute: u32,
    pub second: u32,
}

impl Moment {
    pub fn text(&self, name: &str, zone: &str) -> Vec<u8> {
        let Moment { year, month, day, hour, minute, second } = self;
        format!("{name},{year:04}.{month:02}.{day:02} {hour:02}:{minute:02}:{second:02} {zone}")
            .into_bytes()
    }
}

/// The header of a file with this time line; nothing after it is judged.
pub fn file(version: u8, time: &[u8]) -> Vec<u8> {
    Head { time, ..Head::short(version) }.bytes()
}

/// Every day from 1 January 1970 to 31 December 2099, with its number.
pub fn days() -> impl Iterator<Item = (u64, u32, u32, u32)> {
    let dates = (1970..=2099).flat_map(|year| {
        (1..=12)
            .flat_map(move |month| (1..=month_days(year, month)).map(move |day| (year, month, day)))
    });
    (0..).zip(dates).map(|(number, (year, month, day))| (number, year, month, day))
}

/// The days of a month, the Gregorian way.
pub fn month_days(year: u32, month: u32) -> u32 {
    let every = |years| year.is_multiple_of(years);
    let leap = every(4) && !every(100) || every(400);
    match month {
        2 if leap => 29,
        2 => 28,
        4 | 6 | 9 | 11 => 30,
        _ => 31,
    }
}

const NOON: Moment = Moment { year: 2002, month: 3, day: 17, hour: 14, minute: 1, second: 7 };

/// Every field at and past its limits.
pub fn fields() -> Vec<Vec<u8>> {
    let mut moments = Vec::new();
    let years = [0, 1, 1900, 1969, 1970, 1971, 1972, 1999, 2000, 2001, 2096, 2099, 2100, 9999];
    for year in years {
        for (month, day) in (0..=13).flat_map(|month| (0..=33).map(move |day| (month, day))) {
            moments.push(Moment { year, month, day, ..NOON });
        }
        moments.push(Moment { year, month: 99, ..NOON });
        moments.push(Moment { year, day: 99, ..NOON });
    }
    for value in 0..=99 {
        moments.push(Moment { hour: value, ..NOON });
        moments.push(Moment { minute: value, ..NOON });
        moments.push(Moment { second: value, ..NOON });
    }
    moments.iter().map(|moment| moment.text("Sun", "GMT")).collect()
}

/// The zones that the text form is readable in.
pub const ZONES: [&str; 2] = ["GMT", "UTC"];

/// Zones that are `GMT`, `UTC` or nearly so: each byte changed to every other,
/// any three of their letters, one byte less, one more, none, and long ones.
pub fn zones() -> Vec<Vec<u8>> {
    let mut zones = vec![b"BST".to_vec(), b"CET".to_vec(), b"UTC+1".to_vec(), b"Z".to_vec()];
    for good in ZONES.map(str::as_bytes) {
        for place in 0..good.len() {
            zones.extend((0..=255).map(|new| crate::damage::changed(good, place, new)));
            zones.push([&good[..place], &good[place + 1..]].concat());
            zones.push(good[..place].to_vec());
        }
        for place in 0..=good.len() {
            let more = b" \r\n\0GMTUC+10;\xff".iter();
            zones.extend(more.map(|&byte| [&good[..place], &[byte], &good[place..]].concat()));
        }
        // 40 bytes of zone fill a time line.
        zones.extend((0..=41).map(|length| good.iter().cycle().take(length).copied().collect()));
        zones.extend((0..=41).map(|length| [good, &vec![b' '; length]].concat()));
    }
    let letters = b"GMTUCgmtuc ";
    for (first, second) in letters.iter().flat_map(|&a| letters.map(|b| (a, b))) {
        zones.extend(letters.map(|third| vec![first, second, third]));
    }
    zones
}

/// The seconds since 1970 of the moment that `in_zone` spells.
pub const NOON_SECONDS: u64 = 1_016_373_667;

/// A line of one moment with this zone.
pub fn in_zone(zone: &[u8]) -> Vec<u8> {
    [&NOON.text("Sun", ""), zone].concat()
}

/// The text form cut, lengthened and with each byte changed; zones and names.
pub fn spoiled() -> Vec<Vec<u8>> {
    let good = NOON.text("Sun", "GMT");
    let mut lines: Vec<_> = (0..good.len()).map(|end| good[..end].to_vec()).collect();
    for place in 0..good.len() {
        for new in b"/0123456789:;@,. -+xZ\0\xff\r".iter().chain(&[good[place] ^ 0x80]) {
            lines.push(crate::damage::changed(&good, place, *new));
        }
        lines.push([&good[..place], b"0", &good[place..]].concat());
        lines.push([&good[..place], &good[place + 1..]].concat());
    }
    for length in 0..=41 {
        lines.push(NOON.text("\u{1}\u{2}\u{3}", &" ".repeat(length)));
        lines.push(NOON.text(",,,", &"\0".repeat(length)));
        lines.push(NOON.text("abcd", &"Z".repeat(length)));
    }
    lines
}

/// `@` and numbers around every power of ten and the greatest; and lines
/// that are nearly so.
pub fn numbers() -> Vec<Vec<u8>> {
    let tens = (0..=12).map(|power| 10u64.pow(power));
    let around = tens.chain([0x8000_0000, 0xffff_ffff, 0x1_0000_0000, 0x1_0000_0000 * 10]);
    let mut lines = Vec::new();
    for number in around.flat_map(|number| number.saturating_sub(2)..=number + 2) {
        lines.push(format!("@{number}"));
        for width in 9..=12 {
            lines.push(format!("@{number:0width$}"));
        }
    }
    let near =
        ["", "@", "@@1", "1", "@ 1", "@1 ", "@+1", "@-1", "@1a", "@a1", "@0x1", " @1", "@1\0"];
    lines.extend(near.map(String::from));
    let mut lines: Vec<_> = lines.into_iter().map(String::into_bytes).collect();
    for byte in 0..=255 {
        lines.extend([vec![b'@', byte], vec![byte, b'1'], vec![b'@', b'1', byte, b'2']]);
    }
    lines.extend((1..=64).map(|length| [&b"@"[..], &vec![b'0'; length - 1]].concat()));
    lines
}

/// A line that can be read, in either form, with its seconds.
pub fn readable(rng: &mut Rng) -> (Vec<u8>, u64) {
    if rng.one_in(3) {
        let seconds = rng.next() & 0xffff_ffff;
        return (format!("@{seconds}").into_bytes(), seconds);
    }
    // 47,482 days from 1970 to 2099.
    let seconds = rng.below(47_482 * 86400) as u64;
    let name = rng.pick(&["Sun", "Mon", "xyz", ",,,"]);
    let zone = rng.pick(&ZONES);
    (moment(seconds).text(name, zone), seconds)
}

/// The moment at these seconds since 1970, up to 2099.
pub fn moment(seconds: u64) -> Moment {
    let (mut days, rest) = ((seconds / 86400) as u32, (seconds % 86400) as u32);
    let (mut year, mut month) = (1970, 1);
    while days >= month_days(year, month) {
        days -= month_days(year, month);
        (year, month) = if month == 12 { (year + 1, 1) } else { (year, month + 1) };
    }
    let (hour, minute, second) = (rest / 3600, rest / 60 % 60, rest % 60);
    Moment { year, month, day: days + 1, hour, minute, second }
}

/// The last second before each minute, hour, day, month and year end, spread
/// over all years.
pub fn ends() -> impl Iterator<Item = u64> {
    days().flat_map(|(number, year, month, day)| {
        let start = number * 86400;
        // Midnight every day; minutes and hours on the first of each month.
        let first = day == 1 && (month == 1 || year % 10 == 0);
        let within = if first { vec![start + 59, start + 3599, start + 43199] } else { vec![] };
        within.into_iter().chain([start + 86399])
    })
}

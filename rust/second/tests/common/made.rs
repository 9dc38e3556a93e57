//! Records and files made from a seed, good and spoiled.

use super::*;

pub fn point(rng: &mut Rng) -> [i32; 3] {
    match rng.below(4) {
        0 => [i32::MIN, i32::MAX, rng.next() as i32],
        _ => [rng.below(2) as i32, 0, -(rng.below(2) as i32)],
    }
}

/// A label near the one before, mostly short.
pub fn label(rng: &mut Rng, before: &[u8]) -> Vec<u8> {
    let keep = match rng.below(4) {
        0 => before.len(),
        1 => before.len().saturating_sub(rng.below(40)),
        _ => rng.below(before.len() + 1),
    };
    let most = match rng.below(60) {
        0 => 4096,
        1..=5 => 600,
        6..=12 => 40,
        _ => 6,
    };
    let mut label = before[..keep].to_vec();
    for _ in 0..rng.below(most + 1) {
        label.push(b"ab..\0\xff"[rng.below(6)]);
    }
    label.truncate(4096);
    label
}

/// A date that a file of this version can give after the one before.
pub fn date(rng: &mut Rng, version: u8, before: Date) -> Date {
    let least = if version < 7 { 25567 } else { 0 };
    if version == 3 || rng.chance(3) {
        return before;
    }
    // A file before v7 can't take a date back.
    if rng.chance(3) && (version >= 7 || before == Date::None) {
        return Date::None;
    }
    let day = least + rng.below(65536 - least);
    let last = match rng.below(3) {
        0 => day,
        1 => day + rng.below(300),
        _ => day + rng.below(65536 - day),
    };
    if last == day || last > 65535 {
        Date::Day(day as u16)
    } else {
        Date::Range(day as u16, last as u16)
    }
}

pub fn sides(rng: &mut Rng) -> [i32; 4] {
    std::array::from_fn(|_| match rng.below(12) {
        0 => 32767,
        1 => -32768,
        2 => 32767 + rng.below(2) as i32,
        3 => -32768 - rng.below(2) as i32,
        4 => rng.next() as i32,
        _ => rng.below(300) as i32 - 1,
    })
}

/// Records that a file of this version can hold.
pub fn records(rng: &mut Rng, version: u8) -> Vec<Rec> {
    let (mut name, mut day, mut style) = (Vec::new(), Date::None, 5);
    let mut place = point(rng);
    let count = rng.below(12);
    (0..count)
        .map(|_| {
            let kind = match rng.below(8) {
                0 if version >= 6 => return Rec::Error(std::array::from_fn(|_| rng.next() as i32)),
                1 | 2 if version >= 5 => 3,
                3 | 4 => 2,
                _ => 1,
            };
            if !rng.chance(3) {
                name = label(rng, &name);
            }
            let name = name.clone();
            if kind == 2 {
                let flags = rng.below(if version == 8 { 128 } else { 32 }) as u8;
                return Rec::Station { flags, at: point(rng), label: name };
            }
            day = date(rng, version, day);
            if kind == 3 {
                let (last, sides) = (rng.below(2) as u8, sides(rng));
                return Rec::Section { last, date: day, sides, label: name };
            }
            if version == 8 && rng.chance(3) {
                style = rng.below(5) as u8;
            }
            let from = if rng.chance(3) { point(rng) } else { place };
            place = point(rng);
            Rec::Leg { flags: rng.below(8) as u8, style, date: day, from, to: place, label: name }
        })
        .collect()
}

/// Codes the records in one of the many ways a file of the version may.
struct Coder<'r> {
    rng: &'r mut Rng,
    version: u8,
    items: Vec<u8>,
    label: Vec<u8>,
    /// The least length of the label since the last item that carried one.
    least: usize,
    /// The number kept of each record so far.
    kept: Vec<usize>,
    /// Where the item of each record so far begins.
    begins: Vec<usize>,
    date: Date,
    style: u8,
    place: Option<[i32; 3]>,
}

impl Coder<'_> {
    fn record(&mut self, record: &Rec) {
        let legacy = self.version < 8;
        match record {
            Rec::Leg { flags, style, date, from, to, label } => {
                self.style(*style);
                self.date(*date);
                if self.place != Some(*from) || self.rng.chance(4) {
                    self.items.push(0x0f);
                    self.items.extend(le(from));
                    self.place = Some(*from);
                }
                if !legacy && *label == self.label && self.rng.chance(2) {
                    self.code(0x60 | flags);
                    self.named(label);
                } else {
                    self.label(if legacy { 0x80 } else { 0x40 } | flags, label);
                }
                self.items.extend(le(to));
                self.place = Some(*to);
            }
            Rec::Station { flags, at, label } => {
                self.label(if legacy { 0x40 } else { 0x80 } | flags, label);
                self.items.extend(le(at));
            }
            Rec::Section { last, date, sides, label } => {
                self.date(*date);
                self.section(*last, sides, label);
            }
            Rec::Error(five) => self.error(five),
        }
    }

    /// An error; v3 to v7 may shorten the label before it already.
    fn error(&mut self, five: &[i32; 5]) {
        let legacy = self.version < 8;
        if legacy && self.rng.chance(2) {
            let keep = self.rng.below(self.label.len() + 1);
            self.shorten(keep);
        }
        self.code(if legacy { 0x22 } else { 0x1f });
        self.items.extend(le(five));
        self.kept.push(0);
    }

    fn section(&mut self, last: u8, sides: &[i32; 4], label: &[u8]) {
        let narrow = sides.iter().all(|&side| i16::try_from(side).is_ok());
        if narrow && !self.rng.chance(3) {
            self.label(0x30 | last, label);
            for side in sides {
                self.items.extend((*side as i16).to_le_bytes());
            }
        } else {
            self.label(0x32 | last, label);
            self.items.extend(le(sides));
        }
    }

    fn style(&mut self, style: u8) {
        if style != self.style {
            if style != 1 && self.rng.chance(4) {
                self.items.push(0x01);
            }
            self.items.push(style);
            self.style = style;
        }
    }

    fn date(&mut self, date: Date) {
        if date == self.date && !self.rng.chance(5) {
            return;
        }
        self.date = date;
        if self.version == 3 || (self.version < 7 && date == Date::None) {
            return;
        }
        let (day, last) = match date {
            Date::None => return self.items.push(if self.version == 7 { 0x24 } else { 0x10 }),
            Date::Day(day) => (day, day),
            Date::Range(day, last) => (day, last),
        };
        if self.version < 7 {
            self.seconds(day, last);
        } else {
            self.days(day, last);
        }
    }

    fn seconds(&mut self, day: u16, last: u16) {
        let rng = &mut self.rng;
        let mut time = |day: u16| (u32::from(day) - 25567) * 86400 + rng.below(86400) as u32;
        let (first, second) = (time(day), time(last));
        let two = day != last || self.rng.chance(2);
        self.items.push(if two { 0x21 } else { 0x20 });
        self.items.extend(first.to_le_bytes());
        if two {
            self.items.extend(second.to_le_bytes());
        }
    }

    fn days(&mut self, day: u16, last: u16) {
        let [one, span, two] =
            if self.version == 7 { [0x20, 0x21, 0x23] } else { [0x11, 0x12, 0x13] };
        let form = self.rng.below(3);
        if day == last && form == 0 {
            self.items.push(one);
            self.items.extend(day.to_le_bytes());
        } else if last - day <= 255 && form < 2 {
            self.items.push(span);
            self.items.extend(day.to_le_bytes());
            self.items.push((last - day) as u8);
        } else {
            self.items.push(two);
            self.items.extend(day.to_le_bytes());
            self.items.extend(last.to_le_bytes());
        }
    }

    /// The item's code and its label.
    fn label(&mut self, code: u8, label: &[u8]) {
        let same = self.label.iter().zip(label).take_while(|(a, b)| a == b).count();
        let keep = if self.rng.chance(3) { self.rng.below(same + 1) } else { same };
        if self.version == 8 {
            self.code(code);
            self.change(self.label.len() - keep, label.len() - keep);
            self.cut(keep);
        } else {
            self.shorten(keep);
            self.code(code);
            self.length(label.len() - keep);
        }
        self.items.extend(&label[keep..]);
        self.named(label);
    }

    /// The code of an item that makes a record.
    fn code(&mut self, code: u8) {
        self.begins.push(self.items.len());
        self.items.push(code);
    }

    /// All that shortens the label comes here, so that no length is missed.
    fn cut(&mut self, length: usize) {
        self.label.truncate(length);
        self.least = self.least.min(length);
    }

    /// The item carries this label: its number, and the start of a new stretch.
    fn named(&mut self, label: &[u8]) {
        self.kept.push(self.least);
        self.label = label.to_vec();
        self.least = label.len();
    }

    fn change(&mut self, drop: usize, add: usize) {
        if drop < 16 && add < 16 && drop + add > 0 && !self.rng.chance(4) {
            return self.items.push((16 * drop + add) as u8);
        }
        self.items.push(0);
        for number in [drop, add] {
            if number < 255 && !self.rng.chance(4) {
                self.items.push(number as u8);
            } else {
                self.items.push(0xff);
                self.items.extend((number as u32).to_le_bytes());
            }
        }
    }

    /// Brings the label down to `keep` bytes by the codes of v3 to v7.
    fn shorten(&mut self, keep: usize) {
        if keep == 0 && !self.label.is_empty() {
            self.items.push(0x00);
            self.cut(0);
        }
        while self.label.len() > keep {
            let length = self.label.len();
            self.stay();
            if self.label[keep - 1] == b'.' && length - keep >= 16 && self.rng.chance(2) {
                let dots =
                    self.label[keep - 1..length - 16].iter().filter(|&&byte| byte == b'.').count();
                if dots <= 14 {
                    self.items.push(dots as u8);
                    return self.cut(keep);
                }
            }
            let drop = (length - keep).min(1 + self.rng.below(16));
            self.items.push(15 + drop as u8);
            self.cut(length - drop);
        }
    }

    /// Sometimes a MOVE to where it stands already, which changes nothing.
    fn stay(&mut self) {
        if let Some(place) = self.place.filter(|_| self.rng.chance(6)) {
            self.items.push(0x0f);
            self.items.extend(le(&place));
        }
    }

    fn length(&mut self, length: usize) {
        if length < 254 && !self.rng.chance(5) {
            self.items.push(length as u8);
        } else if length >= 254 && !self.rng.chance(3) {
            self.items.push(0xfe);
            self.items.extend(((length - 254) as u16).to_le_bytes());
        } else {
            self.items.push(0xff);
            self.items.extend((length as u32).to_le_bytes());
        }
    }

    fn close(&mut self) {
        let open = if self.version == 8 { self.style != 0 } else { !self.label.is_empty() };
        if open {
            self.items.push(0);
        }
        self.items.push(0);
    }
}

pub fn items(rng: &mut Rng, version: u8, records: &[Rec]) -> Vec<u8> {
    coded(rng, version, records).0
}

/// The items and the number kept of each record.
pub fn coded(rng: &mut Rng, version: u8, records: &[Rec]) -> (Vec<u8>, Vec<usize>) {
    let coder = closed(rng, version, records);
    (coder.items, coder.kept)
}

/// The items and where among them each record's own item begins.
pub fn placed(rng: &mut Rng, version: u8, records: &[Rec]) -> (Vec<u8>, Vec<usize>) {
    let coder = closed(rng, version, records);
    (coder.items, coder.begins)
}

fn closed<'r>(rng: &'r mut Rng, version: u8, records: &[Rec]) -> Coder<'r> {
    let mut coder = Coder {
        rng,
        version,
        items: Vec::new(),
        label: Vec::new(),
        least: 0,
        kept: Vec::new(),
        begins: Vec::new(),
        date: Date::None,
        style: 5,
        place: None,
    };
    for record in records {
        coder.record(record);
    }
    coder.close();
    coder
}

/// For each record how many bytes its name shares with the name before; 0 for
/// an error.
pub fn shared(records: &[Rec]) -> Vec<usize> {
    let mut before: &[u8] = &[];
    let share = |record| {
        let Some(label) = Rec::label(record) else { return 0 };
        let same = before.iter().zip(label).take_while(|(a, b)| a == b).count();
        before = label;
        same
    };
    records.iter().map(share).collect()
}

/// The records as a version 1 sheet gives them: no section has a date.
pub fn undated_sections(mut records: Vec<Rec>) -> Vec<Rec> {
    for record in &mut records {
        if let Rec::Section { date, .. } = record {
            *date = Date::None;
        }
    }
    records
}

/// One to three bytes of a file changed, more or less, or its end cut off.
pub fn spoil_file(rng: &mut Rng, spoiled: &mut Vec<u8>) {
    for _ in 0..1 + rng.below(3) {
        let place = rng.below(spoiled.len());
        match rng.below(5) {
            0 => spoiled.truncate(place.max(1)),
            1 => spoiled.insert(place, rng.next() as u8),
            2 if spoiled.len() > 1 => drop(spoiled.remove(place)),
            _ => spoiled[place] = rng.next() as u8,
        }
    }
}

/// One or two bytes of a sheet changed or more, or its end cut off.
pub fn spoil_sheet(rng: &mut Rng, spoiled: &mut Vec<u8>) {
    for _ in 0..1 + rng.below(2) {
        let place = rng.below(spoiled.len());
        match rng.below(4) {
            0 => spoiled.truncate(place),
            1 => spoiled.insert(place, rng.below(6) as u8),
            _ => spoiled[place] = rng.next() as u8,
        }
        if spoiled.is_empty() {
            break;
        }
    }
}

//! Codes items into a file of any version, and keeps the state that a reader
//! would have reached, so that the next item can be a valid one.

pub const FILE_ID: &[u8; 21] = b"Survex 3D Image File\n";
pub const LONGEST_LABEL: usize = 4096;

/// How a label's length, or its D and A, are coded.
#[derive(Clone, Copy, PartialEq, Eq, Debug)]
pub enum Form {
    /// The fewest bytes.
    Least,
    /// v3 to v7: fe where it can be; v8: 00, D, A.
    Middle,
    /// u32 each.
    Longest,
}

pub const FORMS: [Form; 3] = [Form::Least, Form::Middle, Form::Longest];

/// A header's parts; `byte` is used in v8 only.
#[derive(Clone, Copy)]
pub struct Head<'a> {
    pub version: u8,
    pub title: &'a [u8],
    pub time: &'a [u8],
    pub byte: u8,
}

impl Head<'_> {
    /// The short header of cases 1 and 3, `@0` for the time line.
    pub fn short(version: u8) -> Head<'static> {
        Head { version, title: b"A", time: b"@0", byte: 0 }
    }

    pub fn bytes(&self) -> Vec<u8> {
        let version = [b'v', b'0' + self.version, b'\n'];
        let mut bytes = [&FILE_ID[..], &version, self.title, b"\n", self.time, b"\n"].concat();
        if self.version == 8 {
            bytes.push(self.byte);
        }
        bytes
    }
}

/// A file, with the places where items and label lengths begin.
#[derive(Clone)]
pub struct Coder {
    pub version: u8,
    pub bytes: Vec<u8>,
    pub label: Vec<u8>,
    pub style: u8,
    pub placed: bool,
    pub items: Vec<usize>,
    pub lengths: Vec<usize>,
}

impl Coder {
    pub fn new(head: Head) -> Coder {
        Coder {
            version: head.version,
            bytes: head.bytes(),
            label: Vec::new(),
            style: 5,
            placed: false,
            items: Vec::new(),
            lengths: Vec::new(),
        }
    }

    pub fn short(version: u8) -> Coder {
        Coder::new(Head::short(version))
    }

    /// Any item: its code and what follows it.
    pub fn item(&mut self, code: u8, rest: &[u8]) -> &mut Self {
        self.items.push(self.bytes.len());
        self.bytes.push(code);
        self.bytes.extend_from_slice(rest);
        self
    }

    pub fn numbers(&mut self, numbers: &[i32]) -> &mut Self {
        for number in numbers {
            self.bytes.extend_from_slice(&number.to_le_bytes());
        }
        self
    }

    /// A label's length and bytes. `drop` is for v8 alone.
    pub fn label(&mut self, drop: usize, add: &[u8], form: Form) -> &mut Self {
        self.lengths.push(self.bytes.len());
        if self.version == 8 {
            self.change_v8(drop, add.len(), form);
        } else {
            self.length_v3_to_v7(add.len(), form);
        }
        self.bytes.extend_from_slice(add);
        self.label.truncate(self.label.len().saturating_sub(drop));
        self.label.extend_from_slice(add);
        self
    }

    fn change_v8(&mut self, drop: usize, add: usize, form: Form) {
        if form == Form::Least && drop <= 15 && add <= 15 && drop + add > 0 {
            return self.bytes.push((16 * drop + add) as u8);
        }
        self.bytes.push(0);
        for number in [drop, add] {
            if number < 255 && form != Form::Longest {
                self.bytes.push(number as u8);
            } else {
                self.bytes.push(0xff);
                self.bytes.extend_from_slice(&(number as u32).to_le_bytes());
            }
        }
    }

    fn length_v3_to_v7(&mut self, length: usize, form: Form) {
        if form == Form::Longest || length > 65789 {
            self.bytes.push(0xff);
            self.bytes.extend_from_slice(&(length as u32).to_le_bytes());
        } else if length >= 254 {
            self.bytes.push(0xfe);
            self.bytes.extend_from_slice(&((length - 254) as u16).to_le_bytes());
        } else {
            self.bytes.push(length as u8);
        }
    }

    pub fn move_to(&mut self, at: [i32; 3]) -> &mut Self {
        self.placed = true;
        self.item(0x0f, &[]).numbers(&at)
    }

    pub fn station(&mut self, flags: u8, change: (usize, &[u8], Form), at: [i32; 3]) -> &mut Self {
        let code = if self.version == 8 { 0x80 } else { 0x40 };
        self.item(code | flags, &[]).label(change.0, change.1, change.2).numbers(&at)
    }

    pub fn leg(&mut self, flags: u8, change: (usize, &[u8], Form), to: [i32; 3]) -> &mut Self {
        let code = if self.version == 8 { 0x40 } else { 0x80 };
        self.placed = true;
        self.item(code | flags, &[]).label(change.0, change.1, change.2).numbers(&to)
    }

    /// A v8 leg with "no label bytes and no change".
    pub fn leg_there(&mut self, flags: u8, to: [i32; 3]) -> &mut Self {
        self.placed = true;
        self.item(0x60 | flags, &[]).numbers(&to)
    }

    /// A section, as i16 if asked for (the numbers are then cut to i16).
    pub fn section(
        &mut self,
        last: u8,
        change: (usize, &[u8], Form),
        sides: [i32; 4],
        narrow: bool,
    ) -> &mut Self {
        let code = if narrow { 0x30 } else { 0x32 };
        self.item(code | last, &[]).label(change.0, change.1, change.2);
        if !narrow {
            return self.numbers(&sides);
        }
        for side in sides {
            self.bytes.extend_from_slice(&(side as i16).to_le_bytes());
        }
        self
    }

    pub fn error(&mut self, five: [i32; 5]) -> &mut Self {
        let code = if self.version == 8 { 0x1f } else { 0x22 };
        self.item(code, &[]).numbers(&five)
    }

    /// One day: seconds since 1970 in v4 to v6, else days since 1900.
    pub fn day(&mut self, day: u32) -> &mut Self {
        let code = if self.version == 8 { 0x11 } else { 0x20 };
        self.item(code, &[]);
        self.date(day)
    }

    pub fn two_days(&mut self, first: u32, last: u32) -> &mut Self {
        let code = [0x21, 0x21, 0x21, 0x23, 0x13][usize::from(self.version) - 4];
        self.item(code, &[]);
        self.date(first).date(last)
    }

    /// Day and span, in v7 and v8.
    pub fn span(&mut self, first: u32, span: u8) -> &mut Self {
        let code = if self.version == 8 { 0x12 } else { 0x21 };
        self.item(code, &[]);
        self.date(first);
        self.bytes.push(span);
        self
    }

    pub fn undated(&mut self) -> &mut Self {
        let code = if self.version == 8 { 0x10 } else { 0x24 };
        self.item(code, &[])
    }

    fn date(&mut self, date: u32) -> &mut Self {
        if self.version < 7 {
            self.bytes.extend_from_slice(&date.to_le_bytes());
        } else {
            self.bytes.extend_from_slice(&(date as u16).to_le_bytes());
        }
        self
    }

    pub fn style(&mut self, style: u8) -> &mut Self {
        self.style = style;
        self.item(style, &[])
    }

    /// v3 to v7: drops 1 to 16 bytes.
    pub fn drop(&mut self, count: usize) -> &mut Self {
        self.label.truncate(self.label.len().saturating_sub(count));
        self.item(15 + count as u8, &[])
    }

    /// v3 to v7: drops 16 bytes, then back to the `count`th dot. Nothing is
    /// written when the label hasn't so many.
    pub fn dots(&mut self, count: usize) -> &mut Self {
        let left = self.label.len().saturating_sub(16);
        let dots = (0..left).rev().filter(|&place| self.label[place] == b'.');
        if let Some(place) = dots.take(count).nth(count - 1) {
            self.label.truncate(place + 1);
            self.item(count as u8, &[]);
        }
        self
    }

    /// v3 to v7: 00 with a label empties it.
    pub fn empty(&mut self) -> &mut Self {
        self.label.clear();
        self.item(0, &[])
    }

    /// The end, with what must come before it.
    pub fn close(&mut self) -> &mut Self {
        if self.version < 8 && !self.label.is_empty() {
            self.empty();
        }
        if self.version == 8 && self.style != 0 {
            self.style(0);
        }
        self.item(0, &[])
    }
}

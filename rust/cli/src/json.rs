//! One object a line.

use crate::text::{drives, hex};

/// An object in the making.
pub struct Object(String);

impl Object {
    pub fn new() -> Object {
        Object("{\"schema\": 1".into())
    }

    /// A number, a truth or another value as it stands.
    pub fn raw(mut self, key: &str, value: impl ToString) -> Object {
        self.0 += &format!(", \"{key}\": {}", value.to_string());
        self
    }

    pub fn text(self, key: &str, value: &str) -> Object {
        let value = quoted(value);
        self.raw(key, value)
    }

    /// Bytes as text; where they are not UTF-8, in hex beside it.
    pub fn bytes(self, key: &str, bytes: &[u8]) -> Object {
        let object = self.text(key, &String::from_utf8_lossy(bytes));
        match std::str::from_utf8(bytes) {
            Ok(_) => object,
            Err(_) => object.text(&format!("{key}_hex"), &hex(bytes)),
        }
    }

    /// A value, or null.
    pub fn maybe(self, key: &str, value: Option<impl ToString>) -> Object {
        match value {
            Some(value) => self.raw(key, value),
            None => self.raw(key, "null"),
        }
    }

    pub fn end(self) -> String {
        self.0 + "}"
    }
}

impl Default for Object {
    fn default() -> Object {
        Object::new()
    }
}

/// A string of JSON.
pub fn quoted(text: &str) -> String {
    let mut out = String::from("\"");
    for letter in text.chars() {
        match letter {
            '"' | '\\' => out.extend(['\\', letter]),
            _ if drives(letter) => out += &format!("\\u{:04x}", letter as u32),
            _ => out.push(letter),
        }
    }
    out + "\""
}

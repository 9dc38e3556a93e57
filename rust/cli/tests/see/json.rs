//! A small reader of JSON.

#[derive(Debug, Clone, PartialEq)]
pub enum Json {
    Null,
    Truth(bool),
    Number(f64),
    Text(String),
    List(Vec<Json>),
    Object(Vec<(String, Json)>),
}

impl Json {
    pub fn get(&self, key: &str) -> &Json {
        match self {
            Json::Object(pairs) => {
                pairs.iter().find(|(own, _)| own == key).map_or(&Json::Null, |(_, value)| value)
            }
            _ => &Json::Null,
        }
    }

    pub fn text(&self) -> &str {
        match self {
            Json::Text(text) => text,
            _ => "",
        }
    }

    #[track_caller]
    pub fn number(&self) -> f64 {
        match self {
            Json::Number(number) => *number,
            other => panic!("no number: {other:?}"),
        }
    }

    pub fn list(&self) -> &[Json] {
        match self {
            Json::List(list) => list,
            _ => &[],
        }
    }
}

#[track_caller]
pub fn parse(text: &str) -> Json {
    let mut rest = text.as_bytes();
    let value = value(&mut rest);
    assert!(rest.trim_ascii().is_empty(), "bytes behind the end");
    value
}

fn value(rest: &mut &[u8]) -> Json {
    *rest = rest.trim_ascii_start();
    match rest[0] {
        b'{' => Json::Object(items(rest, b'}', |rest| {
            let key = string(rest);
            *rest = rest.trim_ascii_start();
            assert_eq!(rest[0], b':');
            *rest = &rest[1..];
            (key, value(rest))
        })),
        b'[' => Json::List(items(rest, b']', value)),
        b'"' => Json::Text(string(rest)),
        _ => word(rest),
    }
}

fn word(rest: &mut &[u8]) -> Json {
    let end = rest.iter().position(|byte| b",]} \n".contains(byte)).unwrap_or(rest.len());
    let (word, behind) = rest.split_at(end);
    *rest = behind;
    match word {
        b"null" => Json::Null,
        b"true" => Json::Truth(true),
        b"false" => Json::Truth(false),
        _ => Json::Number(String::from_utf8_lossy(word).parse().expect("a number")),
    }
}

fn items<T>(rest: &mut &[u8], end: u8, mut item: impl FnMut(&mut &[u8]) -> T) -> Vec<T> {
    let mut all = Vec::new();
    *rest = rest[1..].trim_ascii_start();
    while rest[0] != end {
        all.push(item(rest));
        *rest = rest.trim_ascii_start();
        if rest[0] == b',' {
            *rest = rest[1..].trim_ascii_start();
        }
    }
    *rest = &rest[1..];
    all
}

fn string(rest: &mut &[u8]) -> String {
    assert_eq!(rest[0], b'"');
    let (mut units, mut at) = (Vec::new(), 1);
    while rest[at] != b'"' {
        if rest[at] != b'\\' {
            let end = rest[at..].iter().position(|byte| b"\"\\".contains(byte)).expect("an end");
            let part = std::str::from_utf8(&rest[at..at + end]).expect("UTF-8");
            units.extend(part.encode_utf16());
            at += end;
            continue;
        }
        let letter = rest[at + 1];
        at += 2;
        units.push(match letter {
            b'n' => 10,
            b't' => 9,
            b'r' => 13,
            b'b' => 8,
            b'f' => 12,
            b'u' => {
                let digits = std::str::from_utf8(&rest[at..at + 4]).expect("digits");
                at += 4;
                u16::from_str_radix(digits, 16).expect("hex digits")
            }
            other => other.into(),
        });
    }
    *rest = &rest[at + 1..];
    String::from_utf16_lossy(&units)
}

/// A string of JSON.
pub fn quoted(text: &str) -> String {
    cli::json::quoted(text)
}

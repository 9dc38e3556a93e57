//! The words of a command line, by the table of commands.

use crate::desk::Stop;
use crate::table::{Command, Flag, COMMANDS, COMMON};
use crate::text::shown;
use crate::{help, table};
use std::ffi::{OsStr, OsString};
use std::os::unix::ffi::{OsStrExt, OsStringExt};

/// What the command line asks for.
pub enum Asked {
    /// A text: help, or the version.
    Text(String),
    Command(Given),
}

/// A command with its file names and options.
pub struct Given {
    pub command: &'static Command,
    pub names: Vec<OsString>,
    values: Vec<(&'static str, OsString)>,
}

impl Given {
    /// Whether the option was given.
    pub fn has(&self, long: &str) -> bool {
        self.value(long).is_some()
    }

    /// The value of an option; the last one counts.
    pub fn value(&self, long: &str) -> Option<&OsStr> {
        self.values.iter().rev().find(|(name, _)| *name == long).map(|(_, value)| &value[..])
    }

    /// The value of an option that is a word.
    pub fn text(&self, long: &str) -> Result<Option<&str>, Stop> {
        let words = || self.usage(&format!("{long} takes a word"));
        self.value(long).map(|value| value.to_str().ok_or_else(words)).transpose()
    }

    /// The value of an option that is a number.
    pub fn number(&self, long: &str) -> Result<Option<usize>, Stop> {
        let Some(value) = self.value(long) else { return Ok(None) };
        let digits = value.to_str().filter(|text| text.bytes().all(|byte| byte.is_ascii_digit()));
        match digits.and_then(|text| text.parse().ok()) {
            Some(number) => Ok(Some(number)),
            None => Err(self.usage(&format!("{long} takes a number, not {}", shown(value)))),
        }
    }

    /// A message about how the command was asked.
    pub fn usage(&self, words: &str) -> Stop {
        usage(Some(self.command), words)
    }
}

fn usage(command: Option<&Command>, words: &str) -> Stop {
    let name = command.map(|command| format!(" {}", command.name)).unwrap_or_default();
    Stop::trouble(format!("cockledrift{name}: {words} (try: cockledrift{name} --help)"))
}

/// Takes the words apart.
pub fn parse(words: Vec<OsString>) -> Result<Asked, Stop> {
    let mut words = words.into_iter();
    let Some(first) = words.next() else { return Err(usage(None, "no command")) };
    match first.to_str() {
        Some("--help" | "-h") => return Ok(Asked::Text(help::all())),
        Some("--version" | "-V") => return Ok(Asked::Text(table::version())),
        Some("help") => return helped(words.next()),
        _ => {}
    }
    let found = COMMANDS.iter().find(|command| first == command.name);
    let Some(command) = found else {
        return Err(usage(None, &format!("no command {}", shown(&first))));
    };
    let mut given = Given { command, names: Vec::new(), values: Vec::new() };
    while let Some(word) = words.next() {
        match word.as_bytes() {
            b"--" => given.names.extend(words.by_ref()),
            [b'-', b'-', ..] => long(&mut given, &word, &mut words)?,
            [b'-', _, ..] => short(&mut given, &word, &mut words)?,
            _ => given.names.push(word),
        }
    }
    if given.has("--help") {
        return Ok(Asked::Text(help::of(command)));
    }
    counted(given).map(Asked::Command)
}

fn helped(word: Option<OsString>) -> Result<Asked, Stop> {
    let Some(word) = word else { return Ok(Asked::Text(help::all())) };
    match COMMANDS.iter().find(|command| word == command.name) {
        Some(command) => Ok(Asked::Text(help::of(command))),
        None => Err(usage(None, &format!("no command {}", shown(&word)))),
    }
}

fn flags(command: &'static Command) -> impl Iterator<Item = &'static Flag> {
    command.flags.iter().chain(COMMON)
}

/// `--name`, `--name VALUE` or `--name=VALUE`; the last alone where a value may be
/// left out.
fn long(
    given: &mut Given,
    word: &OsStr,
    words: &mut impl Iterator<Item = OsString>,
) -> Result<(), Stop> {
    let mut parts = word.as_bytes().splitn(2, |&byte| byte == b'=');
    let (name, value) = (parts.next().unwrap_or_default(), parts.next());
    let found = flags(given.command).find(|flag| flag.long.as_bytes() == name);
    let Some(flag) = found else {
        return Err(given.usage(&format!("no option {}", shown(OsStr::from_bytes(name)))));
    };
    let value = value.map(|value| OsString::from_vec(value.into()));
    take(given, flag, value, words)
}

/// `-q`, `-o VALUE`, `-oVALUE`, and several letters in one word.
fn short(
    given: &mut Given,
    word: &OsStr,
    words: &mut impl Iterator<Item = OsString>,
) -> Result<(), Stop> {
    let mut rest = &word.as_bytes()[1..];
    while let [letter, more @ ..] = rest {
        let found = flags(given.command).find(|flag| flag.short == Some(char::from(*letter)));
        let Some(flag) = found else {
            return Err(given.usage(&format!("no option {}", shown(word))));
        };
        if flag.value.is_some() {
            let value = (!more.is_empty()).then(|| OsString::from_vec(more.into()));
            return take(given, flag, value, words);
        }
        take(given, flag, None, words)?;
        rest = more;
    }
    Ok(())
}

fn take(
    given: &mut Given,
    flag: &'static Flag,
    value: Option<OsString>,
    words: &mut impl Iterator<Item = OsString>,
) -> Result<(), Stop> {
    let value = match (flag.value, value) {
        (None, None) => OsString::new(),
        (None, Some(_)) => return Err(given.usage(&format!("{} takes no value", flag.long))),
        (Some(_), Some(value)) => value,
        (Some(_), None) if flag.optional() => OsString::new(),
        (Some(kind), None) => match words.next() {
            Some(value) => value,
            None => return Err(given.usage(&format!("{} takes {kind}", flag.long))),
        },
    };
    given.values.push((flag.long, value));
    Ok(())
}

/// As many file names as the command takes; standard input once.
fn counted(given: Given) -> Result<Given, Stop> {
    let (least, most) = given.command.count;
    let count = given.names.len();
    if count < least || most < count {
        let takes = format!("takes {}, not {count} names", given.command.operands);
        return Err(given.usage(&takes));
    }
    let with = given.value("--with").into_iter();
    if given.names.iter().map(|name| &name[..]).chain(with).filter(|name| *name == "-").count() > 1
    {
        return Err(given.usage("standard input (-) can be read once"));
    }
    Ok(given)
}

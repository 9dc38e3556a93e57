//! The texts of `--help`, by the table of commands.

use crate::table::{Command, Flag, COMMANDS, COMMON, EXITS, LIMITS};

/// The text of `cockledrift --help`.
pub fn all() -> String {
    let mut text = String::from(
        "cockledrift: lists, checks, compares, keeps and mends Survex 3d files.\n\n\
         Usage: cockledrift COMMAND [OPTION].. NAME..\n\nCommands:\n",
    );
    for command in COMMANDS {
        text += &format!("  {:<10} {}\n", command.name, command.words);
    }
    text += "\nA NAME of - is standard input. -- ends the options.\n";
    text += "cockledrift COMMAND --help tells more; cockledrift --version says what this is.\n\n";
    text + EXITS + "\n" + LIMITS + "\n"
}

/// The text of `cockledrift COMMAND --help`.
pub fn of(command: &Command) -> String {
    let mut text = format!(
        "{}\n\nUsage: cockledrift {} [OPTION].. {}\n\n",
        capital(command.words),
        command.name,
        command.operands
    );
    text += &format!("{}\n\nOptions:\n", command.more);
    for flag in command.flags.iter().chain(COMMON) {
        text += &format!("  {:<26} {}\n", form(flag), flag.words);
    }
    text += &format!("\nExample:\n  {}\n\n", command.example);
    text + EXITS + "\n"
}

/// `-o, --output FILE`.
pub fn form(flag: &Flag) -> String {
    let short = flag.short.map(|letter| format!("-{letter}, ")).unwrap_or_default();
    let space = if flag.optional() { "" } else { " " };
    let value = flag.value.map(|value| format!("{space}{value}")).unwrap_or_default();
    format!("{short}{}{value}", flag.long)
}

/// A sentence.
pub fn capital(words: &str) -> String {
    let (first, rest) = words.split_at(1);
    format!("{}{rest}.", first.to_uppercase())
}

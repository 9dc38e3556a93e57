//! The man page, by the table of commands.

use crate::help::{capital, form};
use crate::table::{COMMANDS, COMMON, EXITS, LIMITS};

/// The text of `cockledrift.1`.
pub fn page() -> String {
    let version = env!("CARGO_PKG_VERSION");
    let mut page = format!(".TH COCKLEDRIFT 1 \"\" \"cockledrift {version}\"\n");
    page += ".SH NAME\ncockledrift \\- lists, checks, compares, keeps and mends Survex 3d files\n";
    page += ".SH SYNOPSIS\n.B cockledrift\n.I COMMAND\n[OPTION].. NAME..\n.SH COMMANDS\n";
    for command in COMMANDS {
        let (name, operands) = (command.name, plain(command.operands));
        page += &format!(".SS \"{name} {operands}\"\n");
        page += &format!("{}\n{}\n", plain(&capital(command.words)), plain(command.more));
        for flag in command.flags {
            page += &format!(".TP\n.B {}\n{}\n", plain(&form(flag)), plain(flag.words));
        }
        page += &format!(".PP\n.EX\n{}\n.EE\n", plain(command.example));
    }
    page += ".SH OPTIONS OF EVERY COMMAND\n";
    for flag in COMMON {
        page += &format!(".TP\n.B {}\n{}\n", plain(&form(flag)), plain(flag.words));
    }
    page += &format!(".SH EXIT STATUS\n{}\n.SH LIMITS\n{}\n", plain(EXITS), plain(LIMITS));
    page
}

/// Text in which nothing is taken for a request.
fn plain(text: &str) -> String {
    let text = text.replace('\\', "\\e").replace('-', "\\-");
    let lines = text.lines().map(|line| match line.starts_with(['.', '\'']) {
        true => format!("\\&{line}"),
        false => line.into(),
    });
    lines.collect::<Vec<_>>().join("\n")
}

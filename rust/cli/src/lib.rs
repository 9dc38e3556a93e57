//! The program `cockledrift`: files, arguments and text. Whatever decides
//! anything about a 3d file is in the proved library.

#![forbid(unsafe_code)]

pub mod args;
pub mod commands;
pub mod completions;
pub mod desk;
pub mod disk;
pub mod drawing;
pub mod entry;
pub mod file;
pub mod help;
pub mod json;
pub mod man;
pub mod output;
pub mod page;
pub mod refusals;
pub mod script;
pub mod strict;
pub mod table;
pub mod text;
pub mod time;
pub mod walk;

use args::Asked;
use desk::{Desk, Status, Stop};
use std::ffi::OsString;
use std::process::ExitCode;

/// Runs the program on the words behind its name.
pub fn main(words: Vec<OsString>) -> ExitCode {
    let mut desk = Desk::new();
    let ended = asked(words, &mut desk);
    let status = match ended {
        Ok(status) => status,
        Err(stop) => said(stop, &mut desk),
    };
    // What was found before a trouble is handed over too.
    let closed = desk.close(status).unwrap_or_else(|stop| said(stop, &mut desk).max(status));
    ExitCode::from(closed as u8)
}

/// Says why a command goes no further; a broken pipe ends quietly.
fn said(stop: Stop, desk: &mut Desk) -> Status {
    match stop {
        Stop::Pipe => Status::Good,
        Stop::Said(status, words) => {
            desk.error(&words);
            status
        }
    }
}

fn asked(words: Vec<OsString>, desk: &mut Desk) -> Result<Status, Stop> {
    match args::parse(words)? {
        Asked::Text(text) => desk.line(text.trim_end()).map(|()| Status::Good),
        Asked::Command(given) => {
            desk.set(&given)?;
            (given.command.run)(&given, desk)
        }
    }
}

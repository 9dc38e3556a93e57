//! Where a command puts its results and its messages.

use crate::args::Given;
use std::io::{self, BufWriter, ErrorKind, IsTerminal, Stdout, Write};
use std::time::{Duration, Instant};

/// How a command ended; the greater of two is that of both.
#[derive(Clone, Copy, PartialEq, Eq, PartialOrd, Ord, Debug)]
pub enum Status {
    /// Good.
    Good = 0,
    /// The answer is no: refused, different, older.
    No = 1,
    /// Usage, input or output.
    Trouble = 2,
}

/// Why a command goes no further.
#[derive(Debug)]
pub enum Stop {
    /// Nobody reads the results any more.
    Pipe,
    /// A message, and how to end.
    Said(Status, String),
}

impl Stop {
    pub fn trouble(words: impl Into<String>) -> Stop {
        Stop::Said(Status::Trouble, words.into())
    }

    pub fn no(words: impl Into<String>) -> Stop {
        Stop::Said(Status::No, words.into())
    }
}

pub type Outcome = Result<Status, Stop>;

/// Standard output and standard error, and how to use them.
pub struct Desk {
    out: BufWriter<Stdout>,
    pub json: bool,
    pub quiet: bool,
    /// Whether results go to a terminal.
    pub terminal: bool,
    color: bool,
    started: Instant,
    progress: bool,
    shown: bool,
}

/// The colours of words.
#[derive(Clone, Copy)]
pub enum Color {
    Red = 31,
    Green = 32,
}

impl Desk {
    pub fn new() -> Desk {
        Desk {
            out: BufWriter::new(io::stdout()),
            json: false,
            quiet: false,
            terminal: io::stdout().is_terminal(),
            color: false,
            started: Instant::now(),
            progress: io::stderr().is_terminal(),
            shown: false,
        }
    }

    /// Takes over the options that all commands have.
    pub fn set(&mut self, given: &Given) -> Result<(), Stop> {
        self.json = given.has("--json");
        self.quiet = given.has("--quiet");
        self.progress &= !self.quiet;
        let plain = std::env::var_os("NO_COLOR").is_some_and(|value| !value.is_empty());
        self.color = match given.text("--color")? {
            None | Some("auto") => !plain && self.terminal,
            Some("always") => true,
            Some("never") => false,
            Some(_) => return Err(given.usage("--color takes auto, always or never")),
        };
        Ok(())
    }

    /// A line of results, unless all is to be quiet.
    pub fn line(&mut self, line: &str) -> Result<(), Stop> {
        self.put(line.as_bytes())?;
        self.put(b"\n")
    }

    /// Bytes of results, unless all is to be quiet.
    pub fn put(&mut self, bytes: &[u8]) -> Result<(), Stop> {
        if self.quiet {
            return Ok(());
        }
        self.bytes(bytes)
    }

    /// Bytes of a file that is to go to standard output, quiet or not.
    pub fn bytes(&mut self, bytes: &[u8]) -> Result<(), Stop> {
        self.clear();
        self.out.write_all(bytes).map_err(stopped)
    }

    /// A message that something went wrong.
    pub fn error(&mut self, words: &str) {
        self.clear();
        // Where standard error is gone, there is nobody to tell.
        let _ = self.out.flush();
        let _ = writeln!(io::stderr(), "{words}");
    }

    /// A message that something is worth knowing.
    pub fn warn(&mut self, words: &str) {
        if !self.quiet {
            self.error(words);
        }
    }

    /// The word in its colour, where colours are wanted.
    pub fn paint(&self, word: &str, color: Color) -> String {
        match self.color {
            true => format!("\x1b[{}m{word}\x1b[0m", color as u8),
            false => word.into(),
        }
    }

    /// How far the work is: on a terminal, and after a second.
    pub fn progress(&mut self, done: usize, of: usize) {
        if self.progress && self.started.elapsed() > Duration::from_secs(1) {
            self.shown = true;
            let _ = write!(io::stderr(), "\r{done} of {of} files ");
        }
    }

    fn clear(&mut self) {
        if std::mem::take(&mut self.shown) {
            let _ = write!(io::stderr(), "\r\x1b[K");
        }
    }

    /// Hands over what is still held.
    pub fn close(&mut self, status: Status) -> Outcome {
        self.clear();
        self.out.flush().map_err(stopped)?;
        Ok(status)
    }
}

impl Default for Desk {
    fn default() -> Desk {
        Desk::new()
    }
}

fn stopped(error: io::Error) -> Stop {
    match error.kind() {
        ErrorKind::BrokenPipe => Stop::Pipe,
        _ => Stop::trouble(format!("standard output: {}", crate::text::reason(&error))),
    }
}

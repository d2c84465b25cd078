//! How the command ends, and what it writes to standard output and standard error.

use std::fmt::Display;
use std::io::{self, BufWriter, ErrorKind, Stdout, Write};

/// The exit statuses. Where several things happened, the greatest is given.
#[derive(Clone, Copy, Debug, PartialEq, Eq, PartialOrd, Ord)]
pub enum Status {
    /// Everything was listed.
    Listed = 0,
    /// The library refused something.
    Refused = 1,
    /// The command was called wrongly.
    WrongUse = 2,
    /// An input could not be read.
    Unreadable = 3,
    /// An output could not be written.
    NotWritten = 4,
}

/// Why the command ends before all is done.
#[derive(Debug)]
pub enum Ended {
    WrongUse(String),
    Unreadable(String),
    NotWritten(String),
    /// Whoever reads standard output has gone, and does not want to be told.
    BrokenPipe,
}

impl Ended {
    pub fn status(&self) -> Status {
        match self {
            Ended::WrongUse(_) => Status::WrongUse,
            Ended::Unreadable(_) => Status::Unreadable,
            Ended::NotWritten(_) | Ended::BrokenPipe => Status::NotWritten,
        }
    }

    /// What is said of it.
    pub fn words(&self) -> Option<String> {
        match self {
            Ended::WrongUse(words) => Some(format!("{words}; thikbromu --help tells how it is called")),
            Ended::Unreadable(words) | Ended::NotWritten(words) => Some(words.clone()),
            Ended::BrokenPipe => None,
        }
    }
}

/// An input that cannot be read.
pub fn unreadable(name: impl Display, error: &io::Error) -> Ended {
    Ended::Unreadable(format!("{name} cannot be read: {error}"))
}

/// An output that cannot be written.
pub fn not_written(name: impl Display, error: &io::Error) -> Ended {
    match error.kind() {
        ErrorKind::BrokenPipe => Ended::BrokenPipe,
        _ => Ended::NotWritten(format!("{name} cannot be written: {error}")),
    }
}

/// A line to standard error. Where even that does not take it, nobody is there to be told.
pub fn say(line: &str) {
    let _ = writeln!(io::stderr(), "{line}");
}

/// Standard output.
pub struct Output {
    out: BufWriter<Stdout>,
}

impl Output {
    pub fn new() -> Output {
        Output { out: BufWriter::new(io::stdout()) }
    }

    pub fn write(&mut self, text: &str) -> Result<(), Ended> {
        self.out.write_all(text.as_bytes()).map_err(|error| not_written("standard output", &error))
    }

    pub fn flush(&mut self) -> Result<(), Ended> {
        self.out.flush().map_err(|error| not_written("standard output", &error))
    }
}

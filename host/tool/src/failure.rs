//! What ends a command before a log has ended.

use hongsathep::Error;
use std::{
    fmt::Display,
    io::{self, Write},
    path::Path,
    process::ExitCode,
};

/// How the command line was used.
pub const USAGE: u8 = 64;
/// A directory's text or a record that is too long.
pub const TOO_LONG: u8 = 65;
/// A file that can't be read, or isn't there.
pub const INPUT: u8 = 66;
/// A file that can't be made, or is there already.
pub const OUTPUT: u8 = 73;
/// A write that failed.
pub const WRITE: u8 = 74;
/// Another run is at work.
pub const BUSY: u8 = 75;

/// An exit status, and what is said on standard error.
#[derive(Debug)]
pub struct Failure {
    status: u8,
    words: String,
    is_quiet: bool,
}

impl Failure {
    pub fn new(status: u8, words: impl Into<String>) -> Failure {
        Failure { status, words: words.into(), is_quiet: false }
    }

    /// A file that isn't as it has to be.
    pub fn of(status: u8, path: &Path, words: impl Display) -> Failure {
        Failure::new(status, format!("{}: {words}", path.display()))
    }

    /// A log that can't be read on.
    pub fn reading(path: &Path, error: &io::Error) -> Failure {
        let status = if error.kind() == io::ErrorKind::InvalidData { TOO_LONG } else { INPUT };
        Failure::of(status, path, error)
    }

    /// The crate's error: the status is the answer's number if there is one.
    pub fn refused(status: u8, error: &Error) -> Failure {
        let io = error.io().map(io::Error::kind);
        let status = match (error.number(), io) {
            (Some(number), _) => status_of(number),
            (None, Some(io::ErrorKind::WouldBlock)) => BUSY,
            (None, _) => status,
        };
        let words = match status {
            BUSY => format!("{}: another run is at work on it", error.path().unwrap_or(Path::new("")).display()),
            _ => error.to_string(),
        };
        Failure::new(status, words)
    }

    /// The same, and what became of the files.
    pub fn and(mut self, words: &str) -> Failure {
        self.words = format!("{}; {words}", self.words);
        self
    }

    pub fn tell(self) -> ExitCode {
        if !self.is_quiet {
            say(&self.words);
        }
        ExitCode::from(self.status)
    }
}

/// Says it on standard error. Where that can't be written the exit status is left.
pub fn say(words: &str) {
    let _ = writeln!(io::stderr(), "hongsathep: {words}");
}

/// Standard output can't be written. That nobody reads it any more needs no words.
impl From<io::Error> for Failure {
    fn from(error: io::Error) -> Failure {
        let is_quiet = error.kind() == io::ErrorKind::BrokenPipe;
        Failure { is_quiet, ..Failure::new(WRITE, format!("can't write to standard output: {error}")) }
    }
}

/// An answer's number as an exit status; 0 where the log ended.
pub fn status_of(number: u64) -> u8 {
    match number {
        1 => 0,
        number => u8::try_from(number).unwrap_or(u8::MAX),
    }
}

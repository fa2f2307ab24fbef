//! What goes wrong.

use crate::{answer::Answer, directory::DirectoryFault};
use std::{
    error, fmt, io,
    path::{Path, PathBuf},
};

/// Why a call failed: the library refused, with document 01's number; or a file call failed, with its path.
///
/// A refusal leaves what was handed in as it was.
///
/// ```
/// use hongsathep::{Answer, Directory};
/// let error = "value 7 9 128 20".parse::<Directory>().unwrap_err();
/// assert_eq!(error.number(), Some(13));
/// assert_eq!(error.to_string(), "answer 13 (a state handed in breaks a rule): line 1: the column isn't 0 to 7");
/// ```
#[derive(Debug)]
pub struct Error(Box<Cause>);

#[derive(Debug)]
enum Cause {
    Refused { answer: Answer, position: Option<u64>, path: Option<PathBuf> },
    Directory { fault: DirectoryFault, row: Row },
    File { doing: &'static str, path: PathBuf, error: io::Error },
    FailedBefore,
}

/// Where a directory is at fault, counted from 1.
#[derive(Clone, Copy, Debug)]
pub(crate) enum Row {
    Line(usize),
    Table(usize),
}

impl Error {
    pub(crate) fn refused(answer: Answer) -> Error {
        Error(Box::new(Cause::Refused { answer, position: None, path: None }))
    }

    pub(crate) fn refused_at(answer: Answer, position: usize) -> Error {
        Error(Box::new(Cause::Refused { answer, position: Some(position as u64), path: None }))
    }

    pub(crate) fn directory(fault: DirectoryFault, row: Row) -> Error {
        Error(Box::new(Cause::Directory { fault, row }))
    }

    pub(crate) fn failed_before() -> Error {
        Error(Box::new(Cause::FailedBefore))
    }

    /// What is being done to which file, for `map_err`.
    pub(crate) fn file(doing: &'static str, path: impl Into<PathBuf>) -> impl FnOnce(io::Error) -> Error {
        let path = path.into();
        move |error| Error(Box::new(Cause::File { doing, path, error }))
    }

    /// The same refusal, of a file's bytes.
    pub(crate) fn in_file(mut self, file: impl Into<PathBuf>) -> Error {
        if let Cause::Refused { path, .. } = &mut *self.0 {
            *path = Some(file.into());
        }
        self
    }

    /// The answer; none if a file call failed.
    pub fn answer(&self) -> Option<Answer> {
        match *self.0 {
            Cause::Refused { answer, .. } => Some(answer),
            Cause::Directory { .. } => Some(Answer::BadState),
            Cause::File { .. } | Cause::FailedBefore => None,
        }
    }

    /// Document 01's number of the answer.
    pub fn number(&self) -> Option<u64> {
        self.answer().map(Answer::number)
    }

    /// Where reading stopped: the first byte of the action at fault.
    pub fn position(&self) -> Option<u64> {
        match *self.0 {
            Cause::Refused { position, .. } => position,
            _ => None,
        }
    }

    /// The file: the one whose bytes were refused, or the one that a file call failed on.
    pub fn path(&self) -> Option<&Path> {
        match &*self.0 {
            Cause::Refused { path, .. } => path.as_deref(),
            Cause::File { path, .. } => Some(path),
            _ => None,
        }
    }

    /// The failed file call's error.
    pub fn io(&self) -> Option<&io::Error> {
        match &*self.0 {
            Cause::File { error, .. } => Some(error),
            _ => None,
        }
    }

    /// Which rule a directory breaks.
    pub fn directory_fault(&self) -> Option<DirectoryFault> {
        match *self.0 {
            Cause::Directory { fault, .. } => Some(fault),
            _ => None,
        }
    }

    /// The line of a directory's text that is at fault, counted from 1.
    pub fn line(&self) -> Option<usize> {
        match *self.0 {
            Cause::Directory { row: Row::Line(line), .. } => Some(line),
            _ => None,
        }
    }
}

impl From<Answer> for Error {
    fn from(answer: Answer) -> Error {
        Error::refused(answer)
    }
}

impl fmt::Display for Error {
    fn fmt(&self, f: &mut fmt::Formatter<'_>) -> fmt::Result {
        match &*self.0 {
            Cause::Refused { answer, position, path } => {
                write!(f, "{answer}")?;
                if let Some(position) = position {
                    write!(f, " at byte {position}")?;
                }
                match path {
                    Some(path) => write!(f, " of {}", path.display()),
                    None => Ok(()),
                }
            }
            Cause::Directory { fault, row } => match row {
                Row::Line(line) => write!(f, "{}: line {line}: {fault}", Answer::BadState),
                Row::Table(table) => write!(f, "{}: table {table}: {fault}", Answer::BadState),
            },
            Cause::File { doing, path, error } => write!(f, "can't {doing} {}: {error}", path.display()),
            Cause::FailedBefore => f.write_str("a write failed before: the log has to be opened anew"),
        }
    }
}

impl error::Error for Error {
    fn source(&self) -> Option<&(dyn error::Error + 'static)> {
        self.io().map(|error| error as _)
    }
}

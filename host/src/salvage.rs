//! A damaged log: its whole records, and a list of them and of what is lost.

use crate::{directory::Directory, error::Error, files::Replacement, sys};
use std::{fmt, path::Path};

/// A line of a damaged log's list. It is shown as the program `salvage` prints it.
#[derive(Clone, Copy, Debug, PartialEq, Eq)]
pub enum Line {
    /// A whole record.
    Kept {
        /// Where it begins in the log.
        position: u64,
        /// How many bytes it has.
        length: u64,
        /// Its id.
        id: u64,
    },
    /// A stretch in which no whole record begins.
    Lost {
        /// Where it begins in the log.
        position: u64,
        /// How many bytes it has.
        length: u64,
    },
}

impl Line {
    fn of([kept, position, length, id]: [u64; 4]) -> Line {
        match kept {
            0 => Line::Lost { position, length },
            _ => Line::Kept { position, length, id },
        }
    }

    /// Where it begins in the log.
    pub fn position(self) -> u64 {
        let (Line::Kept { position, .. } | Line::Lost { position, .. }) = self;
        position
    }

    /// How many bytes it has; never none.
    pub fn length(self) -> u64 {
        let (Line::Kept { length, .. } | Line::Lost { length, .. }) = self;
        length
    }

    /// Whether it is a record.
    pub fn is_kept(self) -> bool {
        matches!(self, Line::Kept { .. })
    }
}

impl fmt::Display for Line {
    fn fmt(&self, f: &mut fmt::Formatter<'_>) -> fmt::Result {
        match self {
            Line::Kept { position, length, id } => write!(f, "kept {position} {length} {id}"),
            Line::Lost { position, length } => write!(f, "lost {position} {length}"),
        }
    }
}

/// What is whole of a damaged log.
#[derive(Clone, PartialEq, Eq)]
#[non_exhaustive]
pub struct Salvaged {
    /// The list: the lines cover the log once, in order, none empty, no two lost ones adjoining.
    pub lines: Vec<Line>,
    /// The bytes of the records kept, one behind the other.
    pub records: Vec<u8>,
}

impl Salvaged {
    /// Writes the records to a file: whole, to a new one beside it, brought to its device, then renamed. A failure on the
    /// way leaves the old file.
    pub fn save(&self, path: impl AsRef<Path>) -> Result<(), Error> {
        Replacement::begin(path)?.finish(&self.records)
    }
}

impl fmt::Debug for Salvaged {
    fn fmt(&self, f: &mut fmt::Formatter<'_>) -> fmt::Result {
        f.debug_struct("Salvaged").field("lines", &self.lines).finish_non_exhaustive()
    }
}

/// Finds, from the left, each whole record of a log that is acceptable under the directory, whatever its id; after one is
/// found it goes on behind it. Nothing is applied. 9 for a list of more than 64 lines.
///
/// Ids may repeat and needn't rise, so what is kept needn't be a log that a run takes to its end; [`Records`] goes
/// through it. Inside a damaged record every position is tried: a value that holds a record's bytes is found as one.
///
/// ```
/// use hongsathep::{salvage, ChangeList, Directory};
/// let directory: Directory = "value 7 0 16 3".parse()?;
/// let mut log = ChangeList::new(&directory, 7).record();
/// log.extend([3; 5]);
/// let salvaged = salvage(&directory, &log)?;
/// let lines: Vec<String> = salvaged.lines.iter().map(ToString::to_string).collect();
/// assert_eq!(lines, ["kept 0 14 7", "lost 14 5"]);
/// assert_eq!(salvaged.records, &log[..14]);
/// # Ok::<(), hongsathep::Error>(())
/// ```
///
/// [`Records`]: crate::Records
pub fn salvage(directory: &Directory, log: &[u8]) -> Result<Salvaged, Error> {
    let mut records = vec![0; log.len()];
    let (lines, written) = salvage_into(directory, log, &mut records)?;
    records.truncate(written);
    Ok(Salvaged { lines, records })
}

/// The same into an output, whose rest stays: the list, and how many bytes are written. 9 for a list of more than 64
/// lines, then 10 for an output shorter than the records; a refusal leaves the output as it was.
pub fn salvage_into(directory: &Directory, log: &[u8], out: &mut [u8]) -> Result<(Vec<Line>, usize), Error> {
    let (lines, written) = sys::salvage(directory.kept(), log, out)?;
    Ok((lines.into_iter().map(Line::of).collect(), written))
}

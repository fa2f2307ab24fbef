//! File numbers, and the queues they stand in.

use crate::{
    answer::Answer,
    error::Error,
    sys::{self, raw::QUEUES_WORDS},
};
use std::fmt;

/// A file that was found when a log's folder was opened.
#[derive(Clone, Copy, Debug)]
pub struct Found<'a> {
    /// Its name.
    pub name: &'a [u8],
    /// How many bytes it has.
    pub length: u64,
    /// Its first 9 bytes, or all of a shorter one's; what is behind them isn't looked at.
    pub head: &'a [u8],
}

/// The queues that a log's files move through: appended to, to be read, being read, to be cleaned, in the pool, to be
/// replayed. They hold numbers alone; each call says what the host is to do with the files.
///
/// ```
/// use hongsathep::{Found, Queues};
/// let head = [1, 7, 0, 0, 0, 0, 0, 0, 0];
/// let files = [
///     Found { name: b"log4", length: 14, head: &head },
///     Found { name: b"log2", length: 3, head: &head[..3] },
///     Found { name: b"notes", length: 99, head: &head },
/// ];
/// let (mut queues, remove) = Queues::open(&files)?;
/// assert_eq!(remove, [2]);
/// assert_eq!(queues.replay_record_id(), Some(7));
/// assert_eq!(queues.replay_next(), Some(4));
/// assert_eq!((queues.reading(), queues.next_number()), (Some(4), 5));
/// # Ok::<(), hongsathep::Error>(())
/// ```
#[derive(Clone)]
pub struct Queues(sys::Queues);

/// A record's found.
#[derive(Clone, Copy, Debug, PartialEq, Eq)]
#[non_exhaustive]
pub struct Opening {
    /// The file's number.
    pub file: u32,
    /// The record's id.
    pub id: u64,
    /// The position behind the found.
    pub position: usize,
}

/// What is to be done with files that were cleaned.
#[derive(Clone, Debug, PartialEq, Eq)]
pub struct Cleaned {
    /// Those to empty, in this order.
    pub empty: Vec<u32>,
    /// Those to remove then.
    pub remove: Vec<u32>,
    /// Whether there are more to clean.
    pub more: bool,
}

impl Default for Queues {
    fn default() -> Queues {
        Queues::new()
    }
}

impl Queues {
    /// Without files.
    pub fn new() -> Queues {
        Queues(sys::Queues::new())
    }

    /// The queues of the files found, all to be replayed, and the numbers of those to remove. Names other than "log" and
    /// a decimal number are passed over. 13 if a name comes twice, 9 for more than 64 files, 12 for number 2^32-1.
    pub fn open(files: &[Found<'_>]) -> Result<(Queues, Vec<u32>), Error> {
        let mut found = sys::FoundFiles::default();
        for file in files {
            let mut head = [0; 9];
            head.iter_mut().zip(file.head).for_each(|(to, from)| *to = *from);
            found.names.extend(file.name);
            found.name_lengths.push(file.name.len());
            found.lengths.push(file.length);
            found.heads.extend(head);
        }
        let (queues, remove) = sys::Queues::open(&found)?;
        Ok((Queues(queues), remove))
    }

    /// Moves the appended file to the end of the read queue if its size is greater than the minimum; which it was.
    pub fn flush_one(&mut self, min: u64) -> Option<u32> {
        self.0.flush_one(min)
    }

    /// Tries a record's opening at a position of the file being read, whose bytes `log` are, or else at the front of the
    /// read queue's first file. What was opened; that file is then the one being read. None at the end of the file,
    /// which goes to cleanup, or if there is no file.
    pub fn read_next(&mut self, log: &[u8], position: usize, validate: bool) -> Result<Option<Opening>, Error> {
        let at = if self.reading().is_some() { position } else { 0 };
        match self.0.read_next(log, position, validate) {
            Ok((file, reader)) => Ok(Some(Opening { file, id: reader.record_id(), position: reader.position() })),
            Err(Answer::EndOfLog) => Ok(None),
            Err(answer) => Err(Error::refused_at(answer, at)),
        }
    }

    /// Sends the file being read to cleanup and takes the next one to replay, if there is one.
    pub fn replay_next(&mut self) -> Option<u32> {
        self.0.replay_next()
    }

    /// Moves up to so many files from cleanup to the pool.
    pub fn clean_logs(&mut self, max: usize) -> Cleaned {
        let (more, empty, remove) = self.0.clean_logs(max);
        Cleaned { empty, remove, more }
    }

    /// Takes the pool and the file being read away: the files to remove.
    pub fn kill_logs(&mut self) -> Vec<u32> {
        self.0.kill_logs()
    }

    /// The first id of the next file to replay.
    pub fn replay_record_id(&self) -> Option<u64> {
        self.0.replay_record_id()
    }

    /// How many files wait to be cleaned.
    pub fn num_dirty_logs(&self) -> usize {
        self.0.num_dirty_logs()
    }

    /// Whether files wait to be read.
    pub fn has_log_files_to_read(&self) -> bool {
        self.0.has_log_files_to_read()
    }

    /// The file that is appended to, and its size.
    pub fn appending(&self) -> Option<(u32, u64)> {
        let words = self.words();
        (words[0] == 1).then_some((words[1] as u32, words[2]))
    }

    /// The files that wait to be read.
    pub fn read_queue(&self) -> Vec<u32> {
        self.queue_at(3)
    }

    /// The file being read.
    pub fn reading(&self) -> Option<u32> {
        let words = self.words();
        (words[68] == 1).then_some(words[69] as u32)
    }

    /// The files that wait to be cleaned.
    pub fn cleanup_queue(&self) -> Vec<u32> {
        self.queue_at(70)
    }

    /// The files that wait to be used again.
    pub fn pool(&self) -> Vec<u32> {
        self.queue_at(135)
    }

    /// The files that wait to be replayed, each with its first record's id.
    pub fn replay_queue(&self) -> Vec<(u32, u64)> {
        let ids = self.words()[265..329].iter().copied();
        self.queue_at(200).into_iter().zip(ids).collect()
    }

    /// The number of the next new file.
    pub fn next_number(&self) -> u32 {
        self.words()[329] as u32
    }

    /// Set at open and by the end of a record, cleared when replay is given up or done.
    pub fn is_dirty(&self) -> bool {
        self.words()[330] == 1
    }

    /// The queues' words, as include/hongsathep.h has them.
    pub fn words(&self) -> &[u64; QUEUES_WORDS] {
        self.0.words()
    }

    fn queue_at(&self, at: usize) -> Vec<u32> {
        let count = self.words()[at] as usize;
        self.words()[at + 1..at + 65].iter().take(count).map(|number| *number as u32).collect()
    }

    pub(crate) fn kept(&mut self) -> &mut sys::Queues {
        &mut self.0
    }
}

impl fmt::Debug for Queues {
    fn fmt(&self, f: &mut fmt::Formatter<'_>) -> fmt::Result {
        f.debug_struct("Queues")
            .field("appending", &self.appending())
            .field("read_queue", &self.read_queue())
            .field("reading", &self.reading())
            .field("cleanup_queue", &self.cleanup_queue())
            .field("pool", &self.pool())
            .field("replay_queue", &self.replay_queue())
            .field("next_number", &self.next_number())
            .field("is_dirty", &self.is_dirty())
            .finish()
    }
}

//! Log files in replay order.

use crate::failure::{status_of, Failure, INPUT, USAGE};
use hongsathep::{Answer, FolderLock, Found, LogFile, Queues};
use std::path::{Path, PathBuf};

/// The files to replay.
pub struct Logs {
    pub files: Vec<LogFile>,
    /// Those that are too short for a record, which `open` would remove.
    pub short: Vec<LogFile>,
    /// The id of the first file's first record.
    pub first: Option<u64>,
    /// Held for the lock.
    _lock: Option<FolderLock>,
}

impl Logs {
    /// The files of a folder, or the files named; of one file, what stands from a position on.
    pub fn at(paths: &[PathBuf], from: Option<u64>) -> Result<Logs, Failure> {
        match paths {
            [path] if from.is_none() && path.is_dir() => Logs::in_folder(path),
            [path] if !path.is_dir() => Logs::one(path, from.unwrap_or_default()),
            _ if from.is_some() => Err(Failure::new(USAGE, "--from needs a log that is one file")),
            _ => Logs::named(paths),
        }
    }

    fn in_folder(folder: &Path) -> Result<Logs, Failure> {
        let lock = FolderLock::of(folder).map_err(|error| Failure::refused(INPUT, &error))?;
        let found = LogFile::all_in(folder).map_err(|error| Failure::refused(INPUT, &error))?;
        Logs::in_order(&found, lock).map_err(|answer| refused(folder, answer))
    }

    fn one(path: &Path, from: u64) -> Result<Logs, Failure> {
        let file = looked_at(path, from)?;
        let length = looked_at(path, 0)?.length();
        if from > length {
            let words = format!("it has {length} bytes, there is no byte {from}");
            return Err(Failure::of(14, path, format!("{}: {words}", Answer::BadArgument)));
        }
        Logs::in_order(&[file.named("log0")], None).map_err(|answer| refused(path, answer))
    }

    /// Files that are named are taken whatever their names, as if they were log0, log1 and so on.
    fn named(paths: &[PathBuf]) -> Result<Logs, Failure> {
        let named = |(place, path): (usize, &PathBuf)| Ok(looked_at(path, 0)?.named(format!("log{place}")));
        let found = paths.iter().enumerate().map(named).collect::<Result<Vec<_>, Failure>>()?;
        Logs::in_order(&found, None).map_err(|answer| refused(Path::new("the files"), answer))
    }

    fn in_order(found: &[LogFile], lock: Option<FolderLock>) -> Result<Logs, Answer> {
        let lent: Vec<Found> = found.iter().map(LogFile::found).collect();
        let (queues, remove) = Queues::open(&lent).map_err(|error| error.answer().unwrap_or(Answer::BadState))?;
        let of = |number: u32| {
            let name = format!("log{number}");
            found.iter().find(|file| file.found().name == name.as_bytes()).cloned()
        };
        Ok(Logs {
            files: queues.replay_queue().into_iter().filter_map(|(number, _)| of(number)).collect(),
            short: remove.into_iter().filter_map(of).collect(),
            first: queues.replay_record_id(),
            _lock: lock,
        })
    }

    /// How many bytes there are to read.
    pub fn length(&self) -> u64 {
        self.files.iter().map(LogFile::length).sum()
    }
}

fn looked_at(path: &Path, from: u64) -> Result<LogFile, Failure> {
    LogFile::at(path, from).map_err(|error| Failure::refused(INPUT, &error))
}

fn refused(path: &Path, answer: Answer) -> Failure {
    let words = match answer {
        Answer::NoRoom => "there are more than 64 log files",
        Answer::UsedUp => "the name log4294967295 leaves no number for the next file",
        _ => "their names can't be told apart",
    };
    Failure::of(status_of(answer.number()), path, format!("{answer}: {words}"))
}

//! The files that an earlier life left, and their replay.

use super::{shorten, Log};
use crate::{
    answer::Answer,
    directory::Directory,
    error::Error,
    files::{self, FolderLock, LogFile},
    image::{Image, Ran},
    list::LONGEST_RECORD,
    overlays::Overlays,
    queues::{Found, Queues},
    reader::{Record, Records},
    window::WINDOW,
};
use std::{
    fs::{self, File},
    num::NonZeroU64,
    path::Path,
};

/// A log whose files were found and aren't replayed yet.
#[derive(Debug)]
pub struct Opened {
    log: Log,
    discards: bool,
}

/// What the replay of a file came to.
#[derive(Clone, Copy, Debug, PartialEq, Eq)]
#[non_exhaustive]
pub struct Recovered {
    /// The file's number.
    pub file: u32,
    /// The answer that stopped the run: 1 where the file ends.
    pub answer: Answer,
    /// Where the record not replayed begins.
    pub position: u64,
    /// How many records were replayed.
    pub count: u64,
    /// How many bytes of a record that was never finished were cut off the file.
    pub cut: u64,
}

impl Opened {
    pub(super) fn new(folder: &Path, directory: &Directory) -> Result<Opened, Error> {
        fs::create_dir_all(folder).map_err(Error::file("make", folder))?;
        let lock = FolderLock::new(folder)?;
        let found = LogFile::all_in(folder)?;
        let files: Vec<Found> = found.iter().map(LogFile::found).collect();
        let (queues, remove) = Queues::open(&files)?;
        let log = Log {
            folder: folder.to_path_buf(),
            _lock: lock,
            directory: directory.clone(),
            overlays: Overlays::new(),
            queues,
            next: NonZeroU64::MIN,
            recovered: Vec::new(),
            appending: None,
            reading: None,
            is_unsynced: false,
            is_folder_unsynced: true,
            has_failed: false,
            output: vec![0; LONGEST_RECORD],
        };
        for number in remove {
            files::remove(&log.path_of(number))?;
        }
        Ok(Opened { log, discards: false })
    }

    /// Lets damage pass, as parity-db does: what stands behind the first record that is refused is lost, in later files
    /// too. Without it such a folder isn't opened, and its files stay as they are. (A record that was never finished, at
    /// the end of the last file, is no damage.)
    ///
    /// Where the power fails, a file system may leave any bytes in place of those that were never synced: then this is
    /// right, and nothing synced is lost. Tables that have some of the lost records already come out mixed: the records
    /// before are replayed over them.
    pub fn discard_damage(mut self) -> Opened {
        self.discards = true;
        self
    }

    /// Replays the files onto an image, in the order of their first ids, the id carried on from one to the next. The
    /// image holds then what was in it and all records; the files go to cleanup, and stay on disk until
    /// [`clean`](Log::clean). Save the image before that.
    ///
    /// A record that was never finished, cut off by the end of the last file, is cut off the file. Any other refusal is
    /// an error, with the file, the answer and the place, and leaves the files; the image then has the records before.
    pub fn recover(self, image: &mut Image) -> Result<Log, Error> {
        if image.directory() != &self.log.directory {
            return Err(Answer::BadState.into());
        }
        self.each_file(|log, path, expected| {
            let file = File::open(path).map_err(Error::file("open", path))?;
            let clear = |window: &[u8], count| log.clear(window, count);
            image.run_windows(file, expected, WINDOW, clear).map_err(Error::file("read", path))
        })
    }

    /// The same with each record handed out, whole and checked, for a host that has its tables elsewhere.
    pub fn recover_with<E: From<Error>>(self, mut apply: impl FnMut(&Record<'_>) -> Result<(), E>) -> Result<Log, E> {
        self.each_file(|log, path, expected| {
            let bytes = fs::read(path).map_err(Error::file("read", path))?;
            log.replay_with(&bytes, expected, &mut apply)
        })
    }

    fn each_file<E: From<Error>>(
        mut self,
        mut replay: impl FnMut(&mut Log, &Path, u64) -> Result<Ran, E>,
    ) -> Result<Log, E> {
        let mut expected = self.log.queues.replay_record_id().unwrap_or_default();
        while let Some(number) = self.log.queues.replay_next() {
            let path = self.log.path_of(number);
            let ran = replay(&mut self.log, &path, expected)?;
            expected = expected.wrapping_add(ran.count);
            if !self.settle(number, ran)? {
                break;
            }
        }
        // All files that are left go to cleanup.
        self.log.overlays.clear_replay_logs(&mut self.log.queues);
        Ok(self.log)
    }

    /// The queues of the files found.
    pub fn queues(&self) -> &Queues {
        &self.log.queues
    }

    /// What a file's run means for it and for those behind it; whether the replay goes on.
    fn settle(&mut self, number: u32, ran: Ran) -> Result<bool, Error> {
        let path = self.log.path_of(number);
        let length = fs::metadata(&path).map_err(Error::file("look at", &path))?.len();
        let behind = self.log.queues.replay_queue();
        // What a write leaves that never came to its end.
        let is_unfinished = behind.is_empty() && matches!(ran.answer, Answer::EndOfLog | Answer::Cut);
        let is_damaged = !is_unfinished && ran.answer != Answer::EndOfLog;
        if is_damaged && !self.discards {
            return Err(Error::refused_at(ran.answer, ran.fault as usize).in_file(path));
        }
        // From now on the file ends with a whole record, so that what comes behind it in later files is reached; and it
        // is on its device before them.
        let kept = if is_unfinished || is_damaged { ran.position } else { length };
        if is_damaged {
            behind.iter().rev().try_for_each(|(number, _)| shorten(&self.log.path_of(*number), 0))?;
        }
        shorten(&path, kept)?;
        let Ran { answer, position, count, .. } = ran;
        self.log.recovered.push(Recovered { file: number, answer, position, count, cut: length.saturating_sub(kept) });
        Ok(!is_damaged)
    }
}

impl Log {
    fn replay_with<E: From<Error>>(
        &mut self,
        bytes: &[u8],
        expected: u64,
        apply: &mut impl FnMut(&Record<'_>) -> Result<(), E>,
    ) -> Result<Ran, E> {
        let mut ran = Ran { answer: Answer::EndOfLog, position: 0, count: 0, fault: 0 };
        let mut records = Records::new(&self.directory, bytes).expecting(expected);
        for record in &mut records {
            match record {
                Err(error) => {
                    ran.answer = error.answer().unwrap_or(ran.answer);
                    ran.fault = error.position().unwrap_or_default();
                }
                Ok(record) => {
                    apply(&record)?;
                    self.clear(record.bytes(), 1);
                    ran.count += 1;
                }
            }
        }
        ran.position = records.offset() as u64;
        Ok(ran)
    }

    /// Clears so many records from the front of some bytes on: the next id is then above theirs.
    fn clear(&mut self, bytes: &[u8], count: u64) {
        let mut position = 0;
        for _ in 0..count {
            match self.overlays.end_read(&self.directory, bytes, position, &mut self.next) {
                Ok((end, _)) => position = end,
                // Behind the last id of all there is none.
                Err(_) => self.next = NonZeroU64::MAX,
            }
        }
    }
}

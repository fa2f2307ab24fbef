//! A log in a folder of files.

mod opened;

pub use self::opened::{Opened, Recovered};

use crate::{
    answer::Answer,
    directory::{Directory, IndexTableId, RefCountTableId, ValueTableId},
    error::Error,
    files::{self, FolderLock},
    image::Image,
    list::ChangeList,
    overlays::{Ended, FileSource, Overlays, WithList},
    queues::Queues,
    reader::Record,
};
use std::{
    fmt,
    fs::{self, File, OpenOptions},
    io::Write,
    num::NonZeroU64,
    path::{Path, PathBuf},
};

/// A write-ahead log: its overlays, its file queues, its next id, and real files in a folder.
///
/// The way of a record, as in parity-db:
///
/// 1. [`begin`](Log::begin) makes a change list, which is filled.
/// 2. [`end`](Log::end) appends its record to a file, and lookups find what it says from now on. [`sync`](Log::sync)
///    brings the file to its device: what was ended before is there after any crash.
/// 3. [`flush`](Log::flush) ends the file; [`read_next`](Log::read_next) hands its records out to be applied to the
///    tables, and [`end_read`](Log::end_read) takes each one's entries out of the overlays again
///    ([`apply`](Log::apply) does both for an [`Image`]).
/// 4. Once the tables are on their device, [`clean`](Log::clean) empties the files read, to be used again.
///    [`checkpoint`](Log::checkpoint) is 3 and 4 for an image in a file.
///
/// [`Log::open`] finds the files of an earlier life, and [`Opened::recover`] replays them. One process at a time has a
/// folder open: a file `lock` in it sees to that.
///
/// A log is used by one thread at a time; lookups need a shared reference alone.
///
/// ```
/// use hongsathep::{Directory, Image, Log, ValueTableId};
/// # let folder = std::env::temp_dir().join(format!("hongsathep-log-{}", std::process::id()));
/// # let _ = std::fs::remove_dir_all(&folder);
/// let directory: Directory = "value 7 0 16 3".parse()?;
/// let mut image = Image::new(&directory);
/// let mut log = Log::open(&folder, &directory)?.recover(&mut image)?;
/// let mut list = log.begin()?;
/// list.insert_value(ValueTableId(7), 5, b"abc")?;
/// log.end(&list)?;
/// log.sync()?;
/// assert_eq!(log.value(ValueTableId(7), 5), Some(&b"abc"[..]));
/// drop(log);
///
/// // Another life.
/// let log = Log::open(&folder, &directory)?.recover(&mut image)?;
/// assert_eq!(log.recovered().iter().map(|file| file.count).sum::<u64>(), 1);
/// assert_eq!(image.value(ValueTableId(7), 5), Some(&b"abc"[..]));
/// # std::fs::remove_dir_all(&folder).unwrap();
/// # Ok::<(), hongsathep::Error>(())
/// ```
pub struct Log {
    folder: PathBuf,
    /// Held for the lock.
    _lock: FolderLock,
    directory: Directory,
    overlays: Overlays,
    queues: Queues,
    next: NonZeroU64,
    recovered: Vec<Recovered>,
    appending: Option<File>,
    reading: Option<Reading>,
    /// Bytes were appended that may not be on the device yet.
    is_unsynced: bool,
    /// A file was made whose name may not be on the device yet.
    is_folder_unsynced: bool,
    has_failed: bool,
    output: Vec<u8>,
}

/// The file being read: all of its bytes, and where its next record begins.
struct Reading {
    number: u32,
    bytes: Vec<u8>,
    position: usize,
    is_handed_out: bool,
}

impl Log {
    /// Opens a folder, made if it is missing: locks it, and looks which files there are.
    pub fn open(folder: impl AsRef<Path>, directory: &Directory) -> Result<Opened, Error> {
        Opened::new(folder.as_ref(), directory)
    }

    /// An empty list of the next id. The id counts as used when the list is ended, not before: a list that is dropped
    /// leaves no gap, behind which no run would go. Of two lists begun, the first to be ended has the id, and the other
    /// is refused with 11.
    pub fn begin(&self) -> Result<ChangeList, Error> {
        self.works()?;
        ChangeList::begin(&self.directory, &mut self.next.clone())
    }

    /// Ends a record: appends it to its file, and puts its entries into the overlays. The list stays as it is, so that
    /// after a refusal for room (9) it can be ended again behind a [`checkpoint`](Log::checkpoint).
    ///
    /// What is appended outlives this process; to outlive the machine it needs [`sync`](Log::sync). If the file can't be
    /// written the log does nothing any more but lookups, which may find what isn't in the file, and has to be opened
    /// anew.
    pub fn end(&mut self, list: &ChangeList) -> Result<Ended, Error> {
        self.works()?;
        let next = self.next.checked_add(1).ok_or(Answer::UsedUp)?;
        let Log { directory, overlays, queues, output, .. } = self;
        let ended = overlays.end_record(directory, list, queues, next, output)?;
        let appended = self.append(&ended);
        self.note(appended)?;
        self.next = next;
        Ok(ended)
    }

    fn append(&mut self, ended: &Ended) -> Result<(), Error> {
        let path = self.path_of(ended.file);
        if ended.source != FileSource::Appending {
            let is_new = ended.source == FileSource::New;
            let file = OpenOptions::new().append(true).create_new(is_new).open(&path);
            self.appending = Some(file.map_err(Error::file("open", &path))?);
            self.is_folder_unsynced |= is_new;
        }
        self.is_unsynced = true;
        let record = self.output.get(..ended.size).unwrap_or_default();
        match &mut self.appending {
            Some(file) => file.write_all(record).map_err(Error::file("write", &path)),
            None => Ok(()),
        }
    }

    /// Brings all records ended so far to their device.
    pub fn sync(&mut self) -> Result<(), Error> {
        self.works()?;
        let synced = self.sync_files();
        self.note(synced)
    }

    fn sync_files(&mut self) -> Result<(), Error> {
        if let (Some(file), true) = (&self.appending, self.is_unsynced) {
            let number = self.queues.appending().map_or(0, |(number, _)| number);
            file.sync_data().map_err(Error::file("sync", self.path_of(number)))?;
            self.is_unsynced = false;
        }
        if self.is_folder_unsynced {
            files::sync_folder(&self.folder)?;
            self.is_folder_unsynced = false;
        }
        Ok(())
    }

    /// Ends the file that is appended to if it has more bytes than a minimum: it is synced, and waits to be read. Its
    /// number, if it was ended.
    pub fn flush(&mut self, min: u64) -> Result<Option<u32>, Error> {
        self.works()?;
        let mut queues = self.queues.clone();
        let moved = queues.flush_one(min);
        if moved.is_some() {
            self.sync()?;
            self.queues = queues;
            self.appending = None;
        }
        Ok(moved)
    }

    /// The next record of the files that were flushed, whole and checked, to be applied to the tables. The same one
    /// comes again until [`end_read`](Log::end_read).
    pub fn read_next(&mut self) -> Result<Option<Record<'_>>, Error> {
        self.works()?;
        while self.load()? {
            let path = self.reading.as_ref().map(|file| self.path_of(file.number)).unwrap_or_default();
            let Some(file) = &mut self.reading else { break };
            if self.queues.read_next(&file.bytes, file.position, true).map_err(|error| error.in_file(&path))?.is_some()
            {
                file.is_handed_out = true;
                break;
            }
            self.reading = None;
        }
        let Some(file) = &self.reading else { return Ok(None) };
        let record = Record::read(&self.directory, &file.bytes, file.position, None);
        record.map(Some).map_err(|error| error.in_file(self.path_of(file.number)))
    }

    /// Takes the file being read into memory, or the first that waits; whether there is one.
    fn load(&mut self) -> Result<bool, Error> {
        if self.reading.is_none() {
            if let Some(number) = self.queues.read_queue().first().copied() {
                let path = self.path_of(number);
                let bytes = fs::read(&path).map_err(Error::file("read", &path))?;
                self.reading = Some(Reading { number, bytes, position: 0, is_handed_out: false });
            }
        }
        Ok(self.reading.is_some())
    }

    /// Clears the record that was handed out last: what it says has reached the tables, so lookups needn't find it here.
    /// Newer entries stay. Its id; none if no record is handed out.
    pub fn end_read(&mut self) -> Result<Option<u64>, Error> {
        self.works()?;
        let Some(file) = self.reading.as_mut().filter(|file| file.is_handed_out) else { return Ok(None) };
        let (end, id) = self.overlays.end_read(&self.directory, &file.bytes, file.position, &mut self.next)?;
        file.position = end;
        file.is_handed_out = false;
        Ok(Some(id))
    }

    /// Applies all records that were flushed to an image, and clears them. How many.
    pub fn apply(&mut self, image: &mut Image) -> Result<u64, Error> {
        let mut count = 0;
        while let Some(record) = self.read_next()? {
            image.replay_record(&record)?;
            self.end_read()?;
            count += 1;
        }
        Ok(count)
    }

    /// Empties up to so many of the files that were read, and removes those beyond a pool of 16. Whether there are more.
    ///
    /// **What their records were applied to must be on its device first**: afterwards no replay brings it back. A log
    /// has room for 64 files, and each life appends to one of its own: one that is never cleaned is full after 64.
    pub fn clean(&mut self, max: usize) -> Result<bool, Error> {
        self.works()?;
        let mut queues = self.queues.clone();
        let cleaned = queues.clean_logs(max);
        // In order, each before the next: a crash in between leaves a log without its first records, and never one
        // without some in the middle.
        for number in &cleaned.empty {
            shorten(&self.path_of(*number), 0)?;
        }
        for number in &cleaned.remove {
            files::remove(&self.path_of(*number))?;
        }
        self.queues = queues;
        Ok(cleaned.more)
    }

    /// Brings all records ended so far into an image, the image to its file, and empties the log's files. How many
    /// records were applied.
    pub fn checkpoint(&mut self, image: &mut Image, path: impl AsRef<Path>) -> Result<u64, Error> {
        self.flush(0)?;
        let count = self.apply(image)?;
        image.save(path)?;
        self.clean(usize::MAX)?;
        Ok(count)
    }

    /// Removes the files of the pool, and the one being read, applied or not; for the end of a log's life.
    pub fn kill(mut self) -> Result<(), Error> {
        self.works()?;
        for number in self.queues.kill_logs() {
            files::remove(&self.path_of(number))?;
        }
        files::sync_folder(&self.folder)
    }

    /// The chunk that a record set under a key and the tables may not have yet.
    pub fn index(&self, table: IndexTableId, index: u64) -> Option<&[u8]> {
        self.overlays.index(table, index)
    }

    /// The value that a record set under a key and the tables may not have yet.
    pub fn value(&self, table: ValueTableId, index: u64) -> Option<&[u8]> {
        self.overlays.value(table, index)
    }

    /// The chunk that a record set under a key and the tables may not have yet.
    pub fn ref_count(&self, table: RefCountTableId, index: u64) -> Option<&[u8]> {
        self.overlays.ref_count(table, index)
    }

    /// The same lookups, in a list first.
    pub fn with<'a>(&'a self, list: &'a ChangeList) -> WithList<'a> {
        self.overlays.with(list)
    }

    /// The overlays.
    pub fn overlays(&self) -> &Overlays {
        &self.overlays
    }

    /// The queues.
    pub fn queues(&self) -> &Queues {
        &self.queues
    }

    /// The id of the next record.
    pub fn next_id(&self) -> u64 {
        self.next.get()
    }

    /// The directory.
    pub fn directory(&self) -> &Directory {
        &self.directory
    }

    /// The folder.
    pub fn folder(&self) -> &Path {
        &self.folder
    }

    /// What was replayed when the log was opened, file by file.
    pub fn recovered(&self) -> &[Recovered] {
        &self.recovered
    }

    fn path_of(&self, number: u32) -> PathBuf {
        self.folder.join(format!("log{number}"))
    }

    /// After a failed write nobody knows what the file has: nothing is written behind it.
    fn works(&self) -> Result<(), Error> {
        if self.has_failed {
            return Err(Error::failed_before());
        }
        Ok(())
    }

    fn note<T>(&mut self, result: Result<T, Error>) -> Result<T, Error> {
        self.has_failed |= result.is_err();
        result
    }
}

impl fmt::Debug for Log {
    fn fmt(&self, f: &mut fmt::Formatter<'_>) -> fmt::Result {
        f.debug_struct("Log").field("folder", &self.folder).field("next_id", &self.next).finish_non_exhaustive()
    }
}

/// Cuts a file to a length and brings it to its device.
fn shorten(path: &Path, length: u64) -> Result<(), Error> {
    let file = OpenOptions::new().write(true).open(path);
    let shortened = file.and_then(|file| {
        file.set_len(length)?;
        file.sync_all()
    });
    shortened.map_err(Error::file("shorten", path))
}

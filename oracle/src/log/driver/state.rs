//! The log state: a `Log` of log.rs in a folder of its own, with real files.

use super::{
    super::{Appending, Log, LogOverlays, Reading, MAX_LOG_POOL_SIZE},
    overlays::Shared,
};
use crate::{
    error::Result,
    names::{self, Found, MOST_FILES},
    options::{Options, COLUMNS},
    parking_lot::RwLock,
    protocol::{number, op, put_file, put_nums, Fields},
    scratch::Scratch,
};
use std::{
    collections::{BTreeSet, VecDeque},
    ffi::OsStr,
    fs::{self, File, OpenOptions},
    io::{self, BufReader, BufWriter},
    os::unix::ffi::OsStrExt,
    path::{Path, PathBuf},
    sync::atomic::Ordering::Relaxed,
};

/// "A file's size stays below 2^63."
const SIZE_BOUND: u64 = 1 << 63;

pub struct State {
    pub log: Log,
    /// What is known of its overlays.
    pub shared: Shared,
    /// Holds the log's files; removed with them.
    folder: Scratch,
}

type Queue = RwLock<VecDeque<(u32, File)>>;

impl State {
    /// As after `open` of no files.
    pub fn new() -> io::Result<State> {
        let folder = Scratch::new()?;
        let log = open(folder.path()).expect("a Log over an empty folder");
        Ok(State { log, shared: Shared::default(), folder })
    }

    /// `Log::open` on a folder with these files, and which of them it has removed, in the order
    /// handed in.
    pub fn opened_with(found: &[Found]) -> Result<(State, Vec<u32>)> {
        let folder = Scratch::new().expect("a folder for the log's files");
        for file in found.iter().filter(|file| can_be_a_file(&file.name)) {
            let path = folder.path().join(OsStr::from_bytes(&file.name));
            fs::write(path, &file.bytes).expect("writing a log's file");
        }
        let state = State { log: open(folder.path())?, shared: Shared::default(), folder };
        state.order_ties();
        let there = state.numbers_there();
        let taken = found.iter().filter_map(Found::taken);
        Ok((state, taken.filter(|number| !there.contains(number)).collect()))
    }

    /// "ties by number (added)": the Rust leaves them as the folder was read. Its own order, by
    /// id, has to stand already.
    fn order_ties(&self) {
        let mut queue = self.log.replay_queue.write();
        let queue = queue.make_contiguous();
        assert!(queue.is_sorted_by_key(|(_, id, _)| *id), "log.rs sorts by id");
        queue.sort_by_key(|(number, id, _)| (*id, *number));
    }

    pub fn overlays(&self) -> &RwLock<LogOverlays> {
        self.log.overlays()
    }

    pub fn path_of(&self, number: u32) -> PathBuf {
        Log::log_path(self.folder.path(), number)
    }

    /// The numbers of the files that are in the folder.
    pub fn numbers_there(&self) -> BTreeSet<u32> {
        let entries = fs::read_dir(self.folder.path()).expect("the log's folder");
        let names = entries.map(|entry| entry.expect("a file of the folder").file_name());
        names.filter_map(|name| names::taken(name.as_encoded_bytes())).collect()
    }

    pub fn reading(&self) -> Option<u32> {
        self.log.reading.read().as_ref().map(|reading| reading.id)
    }

    pub fn front_of_read_queue(&self) -> Option<u32> {
        self.log.read_queue.read().front().map(|(number, _)| *number)
    }

    pub fn cleanup(&self) -> Vec<u32> {
        numbers_of(&self.log.cleanup_queue)
    }

    pub fn pool(&self) -> Vec<u32> {
        numbers_of(&self.log.log_pool)
    }

    /// "room kept, ... each file in one place and below the next number, pool ascending and at most
    /// 16", sizes below 2^63.
    pub fn keeps_the_rules(&self) -> bool {
        let (size, pool, mut numbers) = (self.size(), self.pool(), self.numbers());
        let next = self.log.next_log_id.load(Relaxed);
        let all = numbers.len();
        numbers.sort();
        numbers.dedup();
        all <= MOST_FILES
            && numbers.len() == all
            && numbers.iter().all(|number| *number < next)
            && pool.is_sorted()
            && pool.len() <= MAX_LOG_POOL_SIZE
            && size < SIZE_BOUND
    }

    /// Of all places.
    fn numbers(&self) -> Vec<u32> {
        let mut numbers = numbers_of(&self.log.read_queue);
        numbers.extend(self.cleanup());
        numbers.extend(self.pool());
        numbers.extend(self.log.replay_queue.read().iter().map(|(number, _, _)| *number));
        numbers.extend(self.appending());
        numbers.extend(self.reading());
        numbers
    }

    /// The file being appended to.
    pub fn appending(&self) -> Option<u32> {
        self.log.appending.read().as_ref().map(|appending| appending.id)
    }

    pub fn size(&self) -> u64 {
        self.log.appending.read().as_ref().map_or(0, |appending| appending.size)
    }

    pub fn next_id(&self) -> u64 {
        self.log.next_record_id.load(Relaxed)
    }

    pub fn answer(&self) -> Vec<u8> {
        let mut answer = self.places();
        let replay = self.log.replay_queue.read();
        answer.extend((replay.len() as u16).to_le_bytes());
        for (number, id, _) in replay.iter() {
            answer.extend(number.to_le_bytes());
            answer.extend(id.to_le_bytes());
        }
        answer.extend(self.log.next_log_id.load(Relaxed).to_le_bytes());
        answer.extend(self.next_id().to_le_bytes());
        answer.push(self.log.dirty.load(Relaxed).into());
        answer
            .extend(self.overlays().read().last_record_ids.iter().flat_map(|id| id.to_le_bytes()));
        answer
    }

    /// What STATE and FORGE_QUEUES have in common: all places but the replay queue.
    fn places(&self) -> Vec<u8> {
        let mut places = Vec::new();
        put_file(&mut places, self.appending());
        places.extend(self.size().to_le_bytes());
        put_file(&mut places, self.reading());
        for queue in [&self.log.read_queue, &self.log.cleanup_queue, &self.log.log_pool] {
            put_nums(&mut places, &numbers_of(queue));
        }
        places
    }

    /// The FORGE_QUEUES that makes this state, but for the ids in the replay queue.
    pub fn forging(&self) -> Vec<u8> {
        let mut command = vec![op::FORGE_QUEUES];
        command.extend(self.places());
        let replay = self.log.replay_queue.read();
        put_nums(&mut command, &replay.iter().map(|(number, _, _)| *number).collect::<Vec<_>>());
        command.extend(self.log.next_log_id.load(Relaxed).to_le_bytes());
        command.push(self.log.dirty.load(Relaxed).into());
        command
    }

    /// Whether a record of that length finds a file to go into: 9, 12.
    pub fn test_append(&self, length: u64) -> std::result::Result<(), u8> {
        let needs_new = self.appending().is_none() && self.pool().is_empty();
        let last = self.log.next_log_id.load(Relaxed) == u32::MAX;
        if needs_new && self.numbers().len() == MOST_FILES {
            Err(number::NO_ROOM)
        } else if needs_new && last || self.size() + length >= SIZE_BOUND {
            Err(number::USED_UP)
        } else {
            Ok(())
        }
    }

    /// Puts a state together that no call makes, with a file for each number in an empty folder.
    pub fn forge(&self, fields: &mut Fields) {
        for number in self.numbers_there() {
            fs::remove_file(self.path_of(number)).expect("removing a log's file");
        }
        let appending = fields.file();
        let size = fields.u64();
        *self.log.appending.write() =
            appending.map(|id| Appending { id, file: BufWriter::new(self.file_of(id)), size });
        *self.log.reading.write() =
            fields.file().map(|id| Reading { id, file: BufReader::new(self.file_of(id)) });
        for queue in [&self.log.read_queue, &self.log.cleanup_queue, &self.log.log_pool] {
            let numbers = fields.nums().into_iter();
            *queue.write() = numbers.map(|number| (number, self.file_of(number))).collect();
        }
        let replay = fields.nums().into_iter();
        *self.log.replay_queue.write() =
            replay.map(|number| (number, 0, self.file_of(number))).collect();
        self.log.next_log_id.store(fields.u32(), Relaxed);
        self.log.dirty.store(fields.u8() != 0, Relaxed);
    }

    fn file_of(&self, number: u32) -> File {
        let mut options = OpenOptions::new();
        options.read(true).write(true).create(true).truncate(false);
        options.open(self.path_of(number)).expect("a log's file")
    }
}

/// `Log::open` on a folder.
pub fn open(folder: &Path) -> Result<Log> {
    let path = folder.to_path_buf();
    Log::open(&Options { path, columns: [(); COLUMNS], sync_wal: false })
}

/// The others can't stand in a folder, and neither side takes them.
fn can_be_a_file(name: &[u8]) -> bool {
    !matches!(name, b"" | b"." | b"..") && !name.contains(&b'/') && !name.contains(&0)
}

fn numbers_of(queue: &Queue) -> Vec<u32> {
    queue.read().iter().map(|(number, _)| *number).collect()
}

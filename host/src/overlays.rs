//! What records have changed and the tables may not have yet.

use crate::{
    directory::{Directory, IndexTableId, Kind, RefCountTableId, ValueTableId},
    error::Error,
    list::ChangeList,
    queues::Queues,
    sys,
};
use std::{fmt, num::NonZeroU64};

/// The shared overlays: what was put there by the end of a record and not cleared since. 256 keys of each kind.
///
/// A [`Log`](crate::Log) fills and clears them. Lookups lend the stored bytes themselves.
#[derive(Clone)]
pub struct Overlays(sys::Overlays);

impl Default for Overlays {
    fn default() -> Overlays {
        Overlays::new()
    }
}

impl Overlays {
    /// Empty ones.
    pub fn new() -> Overlays {
        Overlays(sys::Overlays::new())
    }

    /// The chunk under a key, 512 bytes, if there is one.
    pub fn index(&self, table: IndexTableId, index: u64) -> Option<&[u8]> {
        self.0.lookup(None, Kind::Index, table.0, index)
    }

    /// The value under a key, if there is one.
    pub fn value(&self, table: ValueTableId, index: u64) -> Option<&[u8]> {
        self.0.lookup(None, Kind::Value, table.0, index)
    }

    /// The chunk under a key, 1,024 bytes, if there is one.
    pub fn ref_count(&self, table: RefCountTableId, index: u64) -> Option<&[u8]> {
        self.0.lookup(None, Kind::RefCount, table.0, index)
    }

    /// Copies the value under a key, as much of it as there is room for; the rest stays. Whether there is one.
    pub fn copy_value(&self, table: ValueTableId, index: u64, to: &mut [u8]) -> bool {
        self.0.copy_value(None, table.0, index, to)
    }

    /// The same lookups, in a list first.
    ///
    /// ```
    /// use hongsathep::{ChangeList, Directory, Overlays, ValueTableId};
    /// let directory: Directory = "value 7 0 16 3".parse()?;
    /// let mut list = ChangeList::new(&directory, 1);
    /// list.insert_value(ValueTableId(7), 5, b"abc")?;
    /// let shared = Overlays::new();
    /// assert_eq!(shared.value(ValueTableId(7), 5), None);
    /// assert_eq!(shared.with(&list).value(ValueTableId(7), 5), Some(&b"abc"[..]));
    /// # Ok::<(), hongsathep::Error>(())
    /// ```
    pub fn with<'a>(&'a self, list: &'a ChangeList) -> WithList<'a> {
        WithList { list: list.kept(), overlays: &self.0 }
    }

    /// The id of the last record that set a value of a column 0 to 7, 0 if none has; 2^64-1 for any other column.
    pub fn last_record_id(&self, column: u64) -> u64 {
        self.0.last_record_id(column)
    }

    /// How many keys of a kind there are.
    pub fn count(&self, kind: Kind) -> usize {
        self.0.head()[kind as usize] as usize
    }

    /// The overlays' words and bytes, as include/hongsathep.h has them: head, `words`, `bytes`.
    pub fn words(&self) -> (&[u64; sys::raw::OVERLAYS_HEAD_WORDS], &[u64], &[u8]) {
        (self.0.head(), self.0.words(), self.0.bytes())
    }

    /// Ends a record: writes it at the front of an output, whose rest stays, puts the list's entries over those here,
    /// and takes the record's file. `next` is the id behind the list's; 11 if it isn't. For a host that makes its file
    /// calls itself: [`Log::end`](crate::Log::end) is this and the file.
    pub fn end_record(
        &mut self,
        directory: &Directory,
        list: &ChangeList,
        queues: &mut Queues,
        next: NonZeroU64,
        output: &mut [u8],
    ) -> Result<Ended, Error> {
        let ended = sys::end_record(directory.kept(), list.kept(), &mut self.0, queues.kept(), next, output)?;
        let source = match ended.source {
            0 => FileSource::Appending,
            1 => FileSource::Pool,
            _ => FileSource::New,
        };
        Ok(Ended { file: ended.file, source, size: ended.size })
    }

    /// Clears the record at a position of a log: its entries go, newer ones stay, and the next id is above its id
    /// afterwards. The position behind it, and its id.
    pub fn end_read(
        &mut self,
        directory: &Directory,
        log: &[u8],
        position: usize,
        next: &mut NonZeroU64,
    ) -> Result<(usize, u64), Error> {
        sys::end_read(directory.kept(), log, position, &mut self.0, next)
            .map_err(|(answer, fault)| Error::refused_at(answer, fault))
    }

    /// Gives replay up, or ends it: the file being read and those to replay go to cleanup, and the overlays are emptied.
    pub fn clear_replay_logs(&mut self, queues: &mut Queues) {
        sys::clear_replay_logs(&mut self.0, queues.kept());
    }
}

/// Where a record's file comes from.
#[derive(Clone, Copy, Debug, PartialEq, Eq)]
pub enum FileSource {
    /// The file that is appended to.
    Appending,
    /// An empty file of the pool, which is appended to from now on.
    Pool,
    /// A new file, which is appended to from now on.
    New,
}

/// What the end of a record tells.
#[derive(Clone, Copy, Debug, PartialEq, Eq)]
#[non_exhaustive]
pub struct Ended {
    /// The number of the file that the record goes to.
    pub file: u32,
    /// Where that file comes from.
    pub source: FileSource,
    /// How many bytes the record has.
    pub size: usize,
}

impl fmt::Debug for Overlays {
    fn fmt(&self, f: &mut fmt::Formatter<'_>) -> fmt::Result {
        let counts = [Kind::Index, Kind::Value, Kind::RefCount].map(|kind| self.count(kind));
        f.debug_struct("Overlays").field("counts", &counts).finish_non_exhaustive()
    }
}

/// Lookups in a change list first, then in the shared overlays.
#[derive(Clone, Copy)]
pub struct WithList<'a> {
    list: &'a sys::List,
    overlays: &'a sys::Overlays,
}

impl<'a> WithList<'a> {
    /// The chunk under a key, 512 bytes, if there is one.
    pub fn index(self, table: IndexTableId, index: u64) -> Option<&'a [u8]> {
        self.overlays.lookup(Some(self.list), Kind::Index, table.0, index)
    }

    /// The value under a key, if there is one.
    pub fn value(self, table: ValueTableId, index: u64) -> Option<&'a [u8]> {
        self.overlays.lookup(Some(self.list), Kind::Value, table.0, index)
    }

    /// The chunk under a key, 1,024 bytes, if there is one.
    pub fn ref_count(self, table: RefCountTableId, index: u64) -> Option<&'a [u8]> {
        self.overlays.lookup(Some(self.list), Kind::RefCount, table.0, index)
    }

    /// Copies the value under a key, as much of it as there is room for; the rest stays. Whether there is one.
    pub fn copy_value(self, table: ValueTableId, index: u64, to: &mut [u8]) -> bool {
        self.overlays.copy_value(Some(self.list), table.0, index, to)
    }
}

impl fmt::Debug for WithList<'_> {
    fn fmt(&self, f: &mut fmt::Formatter<'_>) -> fmt::Result {
        f.debug_struct("WithList").finish_non_exhaustive()
    }
}

//! What a record is to change.

use crate::{
    directory::{Directory, IndexTableId, Kind, RefCountTableId, ValueTableId},
    error::Error,
    sys,
};
use std::{fmt, num::NonZeroU64};

/// A change list: what a record is to change, until it is ended.
///
/// It holds 32 index keys, 32 value keys, 16 reference count keys and 16 drops of each of two kinds. A refused call
/// leaves it as it was.
///
/// ```
/// use hongsathep::{Answer, ChangeList, Directory, IndexTableId, ValueTableId};
/// let directory: Directory = "index 3 0 4\nvalue 7 0 16 3".parse()?;
/// let mut list = ChangeList::new(&directory, 1);
/// list.insert_value(ValueTableId(7), 5, b"abc")?;
/// list.insert_value(ValueTableId(7), 5, b"xyz")?;
/// list.insert_index(IndexTableId(3), 0, 63, &[1; 512])?;
/// assert_eq!(list.values(ValueTableId(7)).collect::<Vec<_>>(), [(5, &b"xyz"[..])]);
/// assert_eq!(list.record().len(), 14 + (11 + 3) + (19 + 8));
///
/// let refused = list.insert_value(ValueTableId(7), 16, b"abc").unwrap_err();
/// assert_eq!(refused.answer(), Some(Answer::NoIndex));
/// # Ok::<(), hongsathep::Error>(())
/// ```
#[derive(Clone)]
pub struct ChangeList {
    directory: Directory,
    list: sys::List,
}

/// The longest record that a list can come to, in bytes.
pub const LONGEST_RECORD: usize = 50_526;

impl ChangeList {
    /// An empty list of an id.
    pub fn new(directory: &Directory, id: u64) -> ChangeList {
        ChangeList { directory: directory.clone(), list: sys::List::new(directory.kept(), id) }
    }

    /// An empty list of the next id, which is raised by 1; 12 if ids are used up.
    /// [`Log::begin`](crate::Log::begin) does so for a log.
    pub fn begin(directory: &Directory, next: &mut NonZeroU64) -> Result<ChangeList, Error> {
        let (list, raised) = sys::begin_record(directory.kept(), *next)?;
        *next = raised;
        Ok(ChangeList { directory: directory.clone(), list })
    }

    /// The directory that it was made for.
    pub fn directory(&self) -> &Directory {
        &self.directory
    }

    /// The id of its record.
    pub fn id(&self) -> u64 {
        self.list.head()[0]
    }

    /// Sets a slot, 0 to 63, of an index chunk. The chunk is 512 bytes; a key that is listed takes the whole new chunk
    /// and adds the slot.
    pub fn insert_index(&mut self, table: IndexTableId, index: u64, slot: u8, chunk: &[u8]) -> Result<(), Error> {
        Ok(self.list.insert(Kind::Index, table.0, index, slot, chunk)?)
    }

    /// Sets a value, of exactly its table's length.
    pub fn insert_value(&mut self, table: ValueTableId, index: u64, value: &[u8]) -> Result<(), Error> {
        Ok(self.list.insert(Kind::Value, table.0, index, 0, value)?)
    }

    /// Sets a slot, 0 to 63, of a reference count chunk, 1,024 bytes.
    pub fn insert_ref_count(
        &mut self,
        table: RefCountTableId,
        index: u64,
        slot: u8,
        chunk: &[u8],
    ) -> Result<(), Error> {
        Ok(self.list.insert(Kind::RefCount, table.0, index, slot, chunk)?)
    }

    /// Empties an index table. In the record drops stand behind all that is set.
    pub fn drop_table(&mut self, table: IndexTableId) -> Result<(), Error> {
        Ok(self.list.drop_table(table.0)?)
    }

    /// Empties a reference count table.
    pub fn drop_ref_count_table(&mut self, table: RefCountTableId) -> Result<(), Error> {
        Ok(self.list.drop_ref_count_table(table.0)?)
    }

    /// The values listed for a table, each with its index, in ascending order.
    pub fn values(&self, table: ValueTableId) -> impl Iterator<Item = (u64, &[u8])> {
        let (from, to) = self.list.values(table.0);
        // Words 288 on: the order of the value keys, each a place p. Words 160 + 4p on: table, index, id, length. The
        // value is at 16,384 + 512p of the chunks.
        let order = self.list.items().get(288 + from..288 + to).unwrap_or_default();
        order.iter().filter_map(|place| {
            let place = usize::try_from(*place).ok()?;
            let row = self.list.items().get(160 + 4 * place..164 + 4 * place)?;
            let chunk = self.list.chunks().get(16_384 + 512 * place..)?;
            Some((row[1], chunk.get(..usize::try_from(row[3]).ok()?)?))
        })
    }

    /// How long its record is.
    pub fn record_size(&self) -> usize {
        self.list.record_size()
    }

    /// Its record.
    pub fn record(&self) -> Vec<u8> {
        let mut record = vec![0; self.record_size()];
        // An output of the record's own length is refused by nothing.
        let written = self.list.write(&mut record).unwrap_or_default();
        record.truncate(written);
        record
    }

    /// Writes its record at the front of an output, whose rest stays; how long it is. 10 if the output is too short.
    pub fn write(&self, output: &mut [u8]) -> Result<usize, Error> {
        Ok(self.list.write(output)?)
    }

    /// The list's words and bytes, as include/hongsathep.h has them: head, `items`, `chunks`.
    pub fn words(&self) -> (&[u64; sys::raw::LIST_HEAD_WORDS], &[u64], &[u8]) {
        (self.list.head(), self.list.items(), self.list.chunks())
    }

    pub(crate) fn kept(&self) -> &sys::List {
        &self.list
    }
}

impl fmt::Debug for ChangeList {
    fn fmt(&self, f: &mut fmt::Formatter<'_>) -> fmt::Result {
        f.debug_struct("ChangeList").field("id", &self.id()).finish_non_exhaustive()
    }
}

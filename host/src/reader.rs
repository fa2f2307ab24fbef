//! A log's bytes, action by action and record by record.

use crate::{
    answer::Answer,
    directory::{Directory, IndexTableId, RefCountTableId, ValueTableId},
    error::Error,
    sys,
};
use std::fmt;

/// What a record says.
#[derive(Clone, Copy, Debug, PartialEq, Eq)]
pub enum Action<'a> {
    /// A record begins.
    BeginRecord {
        /// Its id.
        id: u64,
    },
    /// Entries of an index chunk, 8 bytes each.
    InsertIndex {
        /// The table.
        table: IndexTableId,
        /// Which of its chunks.
        index: u64,
        /// The entries.
        entries: Entries<'a>,
    },
    /// A value.
    InsertValue {
        /// The table.
        table: ValueTableId,
        /// Which of its values.
        index: u64,
        /// The value.
        value: &'a [u8],
    },
    /// Entries of a reference count chunk, 16 bytes each.
    InsertRefCount {
        /// The table.
        table: RefCountTableId,
        /// Which of its chunks.
        index: u64,
        /// The entries.
        entries: Entries<'a>,
    },
    /// An index table is emptied.
    DropTable(IndexTableId),
    /// A reference count table is emptied.
    DropRefCountTable(RefCountTableId),
    /// The record ends. Where the reader validates, its checksum was right.
    EndRecord,
}

/// The entries of a chunk that an action sets, lowest slot first.
#[derive(Clone, Copy, Debug, PartialEq, Eq)]
pub struct Entries<'a> {
    mask: u64,
    bytes: &'a [u8],
    size: usize,
}

impl<'a> Entries<'a> {
    fn of(payload: &'a [u8], size: usize) -> Entries<'a> {
        let mut mask = [0; 8];
        let (front, bytes) = payload.split_at(payload.len().min(8));
        mask.iter_mut().zip(front).for_each(|(to, from)| *to = *from);
        Entries { mask: u64::from_le_bytes(mask), bytes, size }
    }

    /// Bit n is set if slot n is.
    pub fn mask(self) -> u64 {
        self.mask
    }

    /// The entries as they stand in the record, one behind the other.
    pub fn bytes(self) -> &'a [u8] {
        self.bytes
    }

    /// Each slot, 0 to 63, with its entry.
    pub fn iter(self) -> impl Iterator<Item = (u8, &'a [u8])> {
        let slots = (0..64).filter(move |slot| self.mask >> slot & 1 == 1);
        slots.zip(self.bytes.chunks_exact(self.size))
    }
}

/// Steps through a log: an iterator of actions, whose payloads are parts of the log.
///
/// **It hands out actions before the checksum at the record's end is seen.** Whoever applies them must have seen the end
/// first; [`Records`] hands out whole accepted records alone, and is what one wants.
///
/// It ends where the log ends (answer 1), or behind the first refusal, which it gives once.
/// [`offset`](LogReader::offset) is then where it stands: the bytes from there on are no whole action.
///
/// ```
/// use hongsathep::{Action, ChangeList, Directory, LogReader, ValueTableId};
/// let directory: Directory = "value 7 0 16 3".parse()?;
/// let mut list = ChangeList::new(&directory, 1);
/// list.insert_value(ValueTableId(7), 5, b"abc")?;
/// let log = list.record();
/// let actions: Vec<Action> = LogReader::new(&directory, &log).collect::<Result<_, _>>()?;
/// assert_eq!(actions, [
///     Action::BeginRecord { id: 1 },
///     Action::InsertValue { table: ValueTableId(7), index: 5, value: b"abc" },
///     Action::EndRecord,
/// ]);
/// # Ok::<(), hongsathep::Error>(())
/// ```
#[derive(Clone)]
pub struct LogReader<'a> {
    directory: Directory,
    log: &'a [u8],
    reader: sys::Reader,
    is_over: bool,
}

impl<'a> LogReader<'a> {
    /// A reader at a log's front, which tests checksums.
    pub fn new(directory: &Directory, log: &'a [u8]) -> LogReader<'a> {
        LogReader::at(directory, log, 0, true)
    }

    /// A reader between records at a position; whether it tests checksums.
    pub fn at(directory: &Directory, log: &'a [u8], position: usize, validate: bool) -> LogReader<'a> {
        let reader = sys::Reader::new(position, validate);
        LogReader { directory: directory.clone(), log, reader, is_over: false }
    }

    /// Where it stands: behind the last action.
    pub fn offset(&self) -> usize {
        self.reader.position()
    }

    /// The id of the record it is in, or was in last.
    pub fn record_id(&self) -> u64 {
        self.reader.record_id()
    }

    /// The reader's words, as include/hongsathep.h has them.
    pub fn words(&self) -> &[u64; sys::raw::READER_WORDS] {
        self.reader.words()
    }

    /// One action, or the refusal; a refusal leaves the reader where it stands, and may be asked for again.
    pub fn step(&mut self) -> Result<Action<'a>, Error> {
        let position = self.offset();
        let refused = |(answer, fault)| Error::refused_at(answer, fault);
        let stepped = self.reader.next(self.directory.kept(), self.log).map_err(refused)?;
        self.action(&stepped).ok_or_else(|| refused((Answer::Other(0), position)))
    }

    fn action(&self, stepped: &sys::Stepped) -> Option<Action<'a>> {
        let start = usize::try_from(stepped.start).ok()?;
        let length = usize::try_from(stepped.length).ok()?;
        let payload = self.log.get(start..start.checked_add(length)?)?;
        let (table, index) = (u16::try_from(stepped.table).ok()?, stepped.index);
        match stepped.tag {
            1 => Some(Action::BeginRecord { id: self.record_id() }),
            2 => {
                let entries = Entries::of(payload, 8);
                Some(Action::InsertIndex { table: IndexTableId(table), index, entries })
            }
            3 => Some(Action::InsertValue { table: ValueTableId(table), index, value: payload }),
            4 => Some(Action::EndRecord),
            5 => Some(Action::DropTable(IndexTableId(table))),
            6 => {
                let entries = Entries::of(payload, 16);
                Some(Action::InsertRefCount { table: RefCountTableId(table), index, entries })
            }
            7 => Some(Action::DropRefCountTable(RefCountTableId(table))),
            _ => None,
        }
    }
}

impl<'a> Iterator for LogReader<'a> {
    type Item = Result<Action<'a>, Error>;

    fn next(&mut self) -> Option<Result<Action<'a>, Error>> {
        if self.is_over {
            return None;
        }
        let step = self.step();
        self.is_over = step.is_err();
        match step {
            Err(error) if error.answer() == Some(Answer::EndOfLog) => None,
            step => Some(step),
        }
    }
}

/// The whole records of a log, one after the other, each checked to its end before it is handed out.
///
/// It ends where the log ends (answer 1), or behind the first refusal, which it gives once;
/// [`offset`](Records::offset) is then where the record not handed out begins.
///
/// ```
/// use hongsathep::{Action, ChangeList, Directory, Records, ValueTableId};
/// let directory: Directory = "value 7 0 16 3".parse()?;
/// let mut list = ChangeList::new(&directory, 1);
/// list.insert_value(ValueTableId(7), 5, b"abc")?;
/// let mut log = list.record();
/// log.extend(ChangeList::new(&directory, 2).record());
///
/// for record in Records::new(&directory, &log).expecting(1) {
///     let record = record?;
///     for action in record.actions() {
///         println!("record {} at byte {}: {action:?}", record.id(), record.position());
///     }
/// }
///
/// // A log that is cut: its whole records, then the refusal.
/// let cut = &log[..log.len() - 1];
/// let ids: Vec<_> = Records::new(&directory, cut).map(|record| record.map(|r| r.id()).map_err(|e| e.number())).collect();
/// assert_eq!(ids, [Ok(1), Err(Some(2))]);
/// # Ok::<(), hongsathep::Error>(())
/// ```
#[derive(Clone)]
pub struct Records<'a> {
    directory: Directory,
    log: &'a [u8],
    position: usize,
    expected: Option<u64>,
    is_used_up: bool,
    is_over: bool,
}

impl<'a> Records<'a> {
    /// The records from a log's front on.
    pub fn new(directory: &Directory, log: &'a [u8]) -> Records<'a> {
        Records::at(directory, log, 0)
    }

    /// The records from a position on.
    pub fn at(directory: &Directory, log: &'a [u8], position: usize) -> Records<'a> {
        Records { directory: directory.clone(), log, position, expected: None, is_used_up: false, is_over: false }
    }

    /// Demands that the next record has this id and each further one the id behind it: another one is refused with 5,
    /// and whatever stands behind the last id of all with 12. Without it ids may be any.
    pub fn expecting(mut self, id: u64) -> Records<'a> {
        self.expected = Some(id);
        self
    }

    /// Where the next record begins.
    pub fn offset(&self) -> usize {
        self.position
    }

    fn read(&mut self) -> Result<Record<'a>, Error> {
        if self.is_used_up {
            return Err(Error::refused_at(Answer::UsedUp, self.position));
        }
        let record = Record::read(&self.directory, self.log, self.position, self.expected)?;
        self.position = record.position + record.bytes.len();
        self.is_used_up = self.expected == Some(u64::MAX);
        self.expected = self.expected.map(|expected| expected.wrapping_add(1));
        Ok(record)
    }
}

impl<'a> Iterator for Records<'a> {
    type Item = Result<Record<'a>, Error>;

    fn next(&mut self) -> Option<Result<Record<'a>, Error>> {
        if self.is_over {
            return None;
        }
        match self.read() {
            Ok(record) => Some(Ok(record)),
            Err(error) => {
                self.is_over = true;
                (error.answer() != Some(Answer::EndOfLog)).then_some(Err(error))
            }
        }
    }
}

/// A whole record that was checked to its end: its bytes, and what they say.
#[derive(Clone)]
pub struct Record<'a> {
    directory: Directory,
    bytes: &'a [u8],
    position: usize,
    id: u64,
}

impl<'a> Record<'a> {
    /// Reads the record at a position to its end.
    pub(crate) fn read(
        directory: &Directory,
        log: &'a [u8],
        position: usize,
        expected: Option<u64>,
    ) -> Result<Record<'a>, Error> {
        let mut reader = LogReader::at(directory, log, position, true);
        reader.step()?;
        let id = reader.record_id();
        if expected.is_some_and(|expected| expected != id) {
            return Err(Error::refused_at(Answer::WrongId, position));
        }
        while reader.step()? != Action::EndRecord {}
        let bytes = log.get(position..reader.offset()).unwrap_or_default();
        Ok(Record { directory: directory.clone(), bytes, position, id })
    }

    /// Its id.
    pub fn id(&self) -> u64 {
        self.id
    }

    /// Where it begins in the log.
    pub fn position(&self) -> usize {
        self.position
    }

    /// Its bytes, from the begin tag to the checksum.
    pub fn bytes(&self) -> &'a [u8] {
        self.bytes
    }

    /// What it changes, in the order of its bytes; its begin and its end are left out.
    pub fn actions(&self) -> impl Iterator<Item = Action<'a>> {
        let all = LogReader::at(&self.directory, self.bytes, 0, false).map_while(Result::ok);
        all.filter(|action| !matches!(action, Action::BeginRecord { .. } | Action::EndRecord))
    }
}

impl fmt::Debug for LogReader<'_> {
    fn fmt(&self, f: &mut fmt::Formatter<'_>) -> fmt::Result {
        f.debug_struct("LogReader").field("offset", &self.offset()).finish_non_exhaustive()
    }
}

impl fmt::Debug for Records<'_> {
    fn fmt(&self, f: &mut fmt::Formatter<'_>) -> fmt::Result {
        f.debug_struct("Records").field("offset", &self.offset()).finish_non_exhaustive()
    }
}

impl fmt::Debug for Record<'_> {
    fn fmt(&self, f: &mut fmt::Formatter<'_>) -> fmt::Result {
        f.debug_struct("Record").field("id", &self.id).field("position", &self.position).finish_non_exhaustive()
    }
}

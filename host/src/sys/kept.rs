//! The states that keep their rules, and the calls that needn't test them. No field leaves this file to be written.

use super::raw::*;
use crate::{answer::Answer, directory::Kind};
use std::{num::NonZeroU64, sync::Arc};

calls! { kept
    fn hongsathep_next_kept(
        tables: &[u64], log: &[u8], reader: &mut [u64], tag: &mut u64, table: &mut u64, index: &mut u64,
        start: &mut u64, length: &mut u64, fault: &mut u64) -> u64;
    fn hongsathep_replay_kept(
        tables: &[u64], log: &[u8], position: usize, expected: u64, image: &mut [u8], end: &mut u64,
        fault: &mut u64) -> u64;
    fn hongsathep_run_kept(
        tables: &[u64], log: &[u8], position: usize, expected: u64, image: &mut [u8], end: &mut u64,
        count: &mut u64, fault: &mut u64) -> u64;
    fn hongsathep_salvage_kept(
        tables: &[u64], log: &[u8], out: &mut [u8], list: &mut [u64], lines: &mut u64, written: &mut u64) -> u64;
    fn hongsathep_insert_index_kept(
        tables: &[u64], list: &mut [u64], items: &mut [u64], chunks: &mut [u8], table: u16, index: u64, sub: u8,
        data: &[u8]) -> u64;
    fn hongsathep_insert_value_kept(
        tables: &[u64], list: &mut [u64], items: &mut [u64], chunks: &mut [u8], table: u16, index: u64,
        data: &[u8]) -> u64;
    fn hongsathep_insert_ref_count_kept(
        tables: &[u64], list: &mut [u64], items: &mut [u64], chunks: &mut [u8], table: u16, index: u64, sub: u8,
        data: &[u8]) -> u64;
    fn hongsathep_drop_table_kept(
        tables: &[u64], list: &mut [u64], items: &[u64], chunks: &[u8], table: u16) -> u64;
    fn hongsathep_drop_ref_count_table_kept(
        tables: &[u64], list: &mut [u64], items: &[u64], chunks: &[u8], table: u16) -> u64;
    fn hongsathep_record_size_kept(list: &[u64], items: &[u64], chunks: &[u8], size: &mut u64) -> u64;
    fn hongsathep_flush_to_file_kept(
        list: &[u64], items: &[u64], chunks: &[u8], out: &mut [u8], size: &mut u64) -> u64;
    fn hongsathep_local_values_changes_kept(
        list: &[u64], items: &[u64], chunks: &[u8], table: u16, from: &mut u64, to: &mut u64) -> u64;
    fn hongsathep_lookup_kept(
        kind: u64, overlays: &[u64], words: &[u64], bytes: &[u8], table: u16, index: u64, memory: &mut u64,
        place: &mut u64, length: &mut u64) -> u64;
    fn hongsathep_lookup_listed_kept(
        kind: u64, list: &[u64], items: &[u64], chunks: &[u8], overlays: &[u64], words: &[u64], bytes: &[u8],
        table: u16, index: u64, memory: &mut u64, place: &mut u64, length: &mut u64) -> u64;
    fn hongsathep_value_kept(
        overlays: &[u64], words: &[u64], bytes: &[u8], table: u16, index: u64, dest: &mut [u8],
        found: &mut u64) -> u64;
    fn hongsathep_value_listed_kept(
        list: &[u64], items: &[u64], chunks: &[u8], overlays: &[u64], words: &[u64], bytes: &[u8], table: u16,
        index: u64, dest: &mut [u8], found: &mut u64) -> u64;
    fn hongsathep_end_record_kept(
        tables: &[u64], list: &[u64], items: &[u64], chunks: &[u8], overlays: &mut [u64], words: &mut [u64],
        bytes: &mut [u8], queues: &mut [u64], next: u64, out: &mut [u8], size: &mut u64, source: &mut u64,
        file: &mut u64) -> u64;
    fn hongsathep_end_read_kept(
        tables: &[u64], log: &[u8], position: usize, overlays: &mut [u64], words: &mut [u64], bytes: &mut [u8],
        next: &mut u64, end: &mut u64, id: &mut u64, fault: &mut u64) -> u64;
    fn hongsathep_clear_replay_logs_kept(overlays: &mut [u64], queues: &mut [u64]) -> u64;
    fn hongsathep_flush_one_kept(queues: &mut [u64], min: u64, moved: &mut u64, number: &mut u64) -> u64;
    fn hongsathep_read_next_kept(
        queues: &mut [u64], log: &[u8], position: usize, validate: bool, number: &mut u64,
        reader: &mut [u64]) -> u64;
    fn hongsathep_replay_next_kept(queues: &mut [u64], found: &mut u64, number: &mut u64) -> u64;
    fn hongsathep_clean_logs_kept(
        queues: &mut [u64], max: usize, more: &mut u64, empty: &mut [u64; 64], emptied: &mut u64,
        remove: &mut [u64; 64], removed: &mut u64) -> u64;
    fn hongsathep_kill_logs_kept(queues: &mut [u64], remove: &mut [u64; 64], removed: &mut u64) -> u64;
}

fn done(number: u64) -> Result<(), Answer> {
    match Answer::of(number) {
        None => Ok(()),
        Some(answer) => Err(answer),
    }
}

/// A refusal of reading: its answer, and the first byte of the action at fault.
pub(crate) type Refused = (Answer, usize);

/// A directory that keeps its rules.
#[derive(Clone, PartialEq, Eq)]
pub(crate) struct Tables(Arc<[u64]>);

impl Tables {
    pub fn new(words: &[u64]) -> Result<Tables, Answer> {
        done(hongsathep_directory_kept(words))?;
        Ok(Tables(words.into()))
    }

    pub fn words(&self) -> &[u64] {
        &self.0
    }

    pub fn image_length(&self) -> usize {
        hongsathep_image_length(&self.0)
    }

    pub fn start(&self, row: usize) -> usize {
        hongsathep_table_start(&self.0, row)
    }
}

/// An image that has its directory's length. What its bytes are is free.
#[derive(Clone)]
pub(crate) struct Bytes {
    tables: Tables,
    bytes: Box<[u8]>,
}

impl Bytes {
    pub fn zeros(tables: &Tables) -> Bytes {
        Bytes { tables: tables.clone(), bytes: vec![0; tables.image_length()].into() }
    }

    pub fn new(tables: &Tables, bytes: Vec<u8>) -> Result<Bytes, Answer> {
        if bytes.len() != tables.image_length() {
            return Err(Answer::BadState);
        }
        Ok(Bytes { tables: tables.clone(), bytes: bytes.into() })
    }

    pub fn bytes(&self) -> &[u8] {
        &self.bytes
    }

    pub fn bytes_mut(&mut self) -> &mut [u8] {
        &mut self.bytes
    }

    pub fn into_bytes(self) -> Vec<u8> {
        self.bytes.into()
    }

    /// The position behind the record.
    pub fn replay(&mut self, log: &[u8], position: usize, expected: u64) -> Result<usize, Refused> {
        let (tables, image, mut end, mut fault) = (&self.tables.0, &mut self.bytes, 0, 0);
        let (e, f) = (&mut end, &mut fault);
        done(unsafe { hongsathep_replay_kept(tables, log, position, expected, image, e, f) })
            .map(|()| end as usize)
            .map_err(|answer| (answer, fault as usize))
    }

    /// What stopped the run, the position where the record not replayed begins, and how many were.
    pub fn run(&mut self, log: &[u8], position: usize, expected: u64) -> (Refused, usize, u64) {
        let (tables, image) = (&self.tables.0, &mut self.bytes);
        let (mut end, mut count, mut fault) = (0, 0, 0);
        let (e, c, f) = (&mut end, &mut count, &mut fault);
        let number = unsafe { hongsathep_run_kept(tables, log, position, expected, image, e, c, f) };
        ((Answer::of(number).unwrap_or(Answer::Other(number)), fault as usize), end as usize, count)
    }
}

/// Salvages a damaged log into an output; the words of the list's lines, and how many bytes are written.
pub(crate) fn salvage(tables: &Tables, log: &[u8], out: &mut [u8]) -> Result<(Vec<[u64; 4]>, usize), Answer> {
    let (mut list, mut lines, mut written) = ([0; SALVAGE_WORDS], 0, 0);
    let (l, w) = (&mut lines, &mut written);
    done(unsafe { hongsathep_salvage_kept(&tables.0, log, out, &mut list, l, w) })?;
    let words = list.chunks_exact(4).take(lines as usize).filter_map(|line| line.try_into().ok());
    Ok((words.collect(), written as usize))
}

/// A reader of a log.
#[derive(Clone)]
pub(crate) struct Reader([u64; READER_WORDS]);

/// An action in numbers.
#[derive(Default)]
pub(crate) struct Stepped {
    pub tag: u64,
    pub table: u64,
    pub index: u64,
    pub start: u64,
    pub length: u64,
}

impl Reader {
    pub fn new(position: usize, validate: bool) -> Reader {
        let mut words = [0; READER_WORDS];
        hongsathep_reader_new(&mut words, position, validate);
        Reader(words)
    }

    pub fn next(&mut self, tables: &Tables, log: &[u8]) -> Result<Stepped, Refused> {
        let (mut s, mut fault) = (Stepped::default(), 0);
        let (tag, table, index) = (&mut s.tag, &mut s.table, &mut s.index);
        let (start, length, f) = (&mut s.start, &mut s.length, &mut fault);
        done(unsafe { hongsathep_next_kept(&tables.0, log, &mut self.0, tag, table, index, start, length, f) })
            .map(|()| s)
            .map_err(|answer| (answer, fault as usize))
    }

    pub fn position(&self) -> usize {
        self.0[0] as usize
    }

    pub fn record_id(&self) -> u64 {
        self.0[1]
    }

    pub fn words(&self) -> &[u64; READER_WORDS] {
        &self.0
    }
}

/// A change list that keeps its rules and fits its directory.
#[derive(Clone)]
pub(crate) struct List {
    tables: Tables,
    head: [u64; LIST_HEAD_WORDS],
    items: Box<[u64]>,
    chunks: Box<[u8]>,
}

impl List {
    pub fn new(tables: &Tables, id: u64) -> List {
        let (items, chunks) = (vec![0; LIST_WORDS].into(), vec![0; LIST_BYTES].into());
        let mut list = List { tables: tables.clone(), head: [0; LIST_HEAD_WORDS], items, chunks };
        hongsathep_list_new(&mut list.head, id);
        list
    }

    pub fn head(&self) -> &[u64; LIST_HEAD_WORDS] {
        &self.head
    }

    pub fn items(&self) -> &[u64] {
        &self.items
    }

    pub fn chunks(&self) -> &[u8] {
        &self.chunks
    }

    /// A value has no slot: it isn't looked at then.
    pub fn insert(&mut self, kind: Kind, table: u16, index: u64, slot: u8, data: &[u8]) -> Result<(), Answer> {
        let (tables, list) = (&self.tables.0, &mut self.head);
        let (items, chunks) = (&mut self.items, &mut self.chunks);
        done(unsafe {
            match kind {
                Kind::Index => hongsathep_insert_index_kept(tables, list, items, chunks, table, index, slot, data),
                Kind::Value => hongsathep_insert_value_kept(tables, list, items, chunks, table, index, data),
                Kind::RefCount => {
                    hongsathep_insert_ref_count_kept(tables, list, items, chunks, table, index, slot, data)
                }
            }
        })
    }

    pub fn drop_table(&mut self, table: u16) -> Result<(), Answer> {
        let (tables, list) = (&self.tables.0, &mut self.head);
        done(unsafe { hongsathep_drop_table_kept(tables, list, &self.items, &self.chunks, table) })
    }

    pub fn drop_ref_count_table(&mut self, table: u16) -> Result<(), Answer> {
        let (tables, list) = (&self.tables.0, &mut self.head);
        done(unsafe { hongsathep_drop_ref_count_table_kept(tables, list, &self.items, &self.chunks, table) })
    }

    pub fn record_size(&self) -> usize {
        let mut size = 0;
        unsafe { hongsathep_record_size_kept(&self.head, &self.items, &self.chunks, &mut size) };
        size as usize
    }

    pub fn write(&self, out: &mut [u8]) -> Result<usize, Answer> {
        let mut size = 0;
        done(unsafe { hongsathep_flush_to_file_kept(&self.head, &self.items, &self.chunks, out, &mut size) })?;
        Ok(size as usize)
    }

    /// Where a table's values stand in the order of the value keys.
    pub fn values(&self, table: u16) -> (usize, usize) {
        let (mut from, mut to) = (0, 0);
        let (list, items, chunks) = (&self.head, &self.items, &self.chunks);
        unsafe { hongsathep_local_values_changes_kept(list, items, chunks, table, &mut from, &mut to) };
        (from as usize, to as usize)
    }
}

/// Shared overlays that keep their rules.
#[derive(Clone)]
pub(crate) struct Overlays {
    head: [u64; OVERLAYS_HEAD_WORDS],
    words: Box<[u64]>,
    bytes: Box<[u8]>,
}

impl Overlays {
    pub fn new() -> Overlays {
        let (words, bytes) = (vec![0; OVERLAYS_WORDS].into(), vec![0; OVERLAYS_BYTES].into());
        let mut overlays = Overlays { head: [0; OVERLAYS_HEAD_WORDS], words, bytes };
        hongsathep_overlays_new(&mut overlays.head);
        overlays
    }

    pub fn head(&self) -> &[u64; OVERLAYS_HEAD_WORDS] {
        &self.head
    }

    pub fn words(&self) -> &[u64] {
        &self.words
    }

    pub fn bytes(&self) -> &[u8] {
        &self.bytes
    }

    pub fn last_record_id(&self, column: u64) -> u64 {
        hongsathep_last_record_id(&self.head, column)
    }

    /// In a list first, if there is one.
    pub fn lookup<'a>(&'a self, list: Option<&'a List>, kind: Kind, table: u16, index: u64) -> Option<&'a [u8]> {
        let (mut memory, mut place, mut length) = (0, 0, 0);
        let (head, words, bytes) = (&self.head, &self.words, &self.bytes);
        let (m, p, n) = (&mut memory, &mut place, &mut length);
        unsafe {
            match list {
                None => hongsathep_lookup_kept(kind as u64, head, words, bytes, table, index, m, p, n),
                Some(l) => hongsathep_lookup_listed_kept(
                    kind as u64,
                    &l.head,
                    &l.items,
                    &l.chunks,
                    head,
                    words,
                    bytes,
                    table,
                    index,
                    m,
                    p,
                    n,
                ),
            }
        };
        let holder = match (memory, list) {
            (1, Some(list)) => &list.chunks,
            (2, _) => bytes,
            _ => return None,
        };
        holder.get(place as usize..(place + length) as usize)
    }

    /// Whether there is a value; as much of it as `dest` has room for is there then.
    pub fn copy_value(&self, list: Option<&List>, table: u16, index: u64, dest: &mut [u8]) -> bool {
        let mut found = 0;
        let (head, words, bytes) = (&self.head, &self.words, &self.bytes);
        unsafe {
            match list {
                None => hongsathep_value_kept(head, words, bytes, table, index, dest, &mut found),
                Some(l) => hongsathep_value_listed_kept(
                    &l.head, &l.items, &l.chunks, head, words, bytes, table, index, dest, &mut found,
                ),
            }
        };
        found == 1
    }
}

/// File queues that keep their rules.
#[derive(Clone)]
pub(crate) struct Queues([u64; QUEUES_WORDS]);

/// The files found: the bytes of all names and the length of each, each file's length, each one's first 9 bytes.
#[derive(Default)]
pub(crate) struct FoundFiles {
    pub names: Vec<u8>,
    pub name_lengths: Vec<usize>,
    pub lengths: Vec<u64>,
    pub heads: Vec<u8>,
}

/// Numbers that a call told, as many as it says.
fn told(numbers: &[u64], count: u64) -> Vec<u32> {
    numbers.iter().take(count as usize).map(|number| *number as u32).collect()
}

impl Queues {
    pub fn new() -> Queues {
        let mut words = [0; QUEUES_WORDS];
        hongsathep_queues_new(&mut words);
        Queues(words)
    }

    /// The queues, and the files to remove.
    pub fn open(found: &FoundFiles) -> Result<(Queues, Vec<u32>), Answer> {
        let mut queues = Queues::new();
        let mut remove = vec![0; found.lengths.len()];
        let mut removed = 0;
        let FoundFiles { names, name_lengths, lengths, heads } = found;
        done(hongsathep_open(names, name_lengths, lengths, heads, &mut remove, &mut removed, &mut queues.0))?;
        Ok((queues, told(&remove, removed)))
    }

    pub fn words(&self) -> &[u64; QUEUES_WORDS] {
        &self.0
    }

    pub fn flush_one(&mut self, min: u64) -> Option<u32> {
        let (mut moved, mut number) = (0, 0);
        unsafe { hongsathep_flush_one_kept(&mut self.0, min, &mut moved, &mut number) };
        (moved == 1).then_some(number as u32)
    }

    /// The file's number, and the reader behind the opening.
    pub fn read_next(&mut self, log: &[u8], position: usize, validate: bool) -> Result<(u32, Reader), Answer> {
        let (mut reader, mut number) = (Reader::new(position, validate), 0);
        done(unsafe { hongsathep_read_next_kept(&mut self.0, log, position, validate, &mut number, &mut reader.0) })?;
        Ok((number as u32, reader))
    }

    pub fn replay_next(&mut self) -> Option<u32> {
        let (mut found, mut number) = (0, 0);
        unsafe { hongsathep_replay_next_kept(&mut self.0, &mut found, &mut number) };
        (found == 1).then_some(number as u32)
    }

    /// Whether cleanup still holds any; the files to empty, and then to remove.
    pub fn clean_logs(&mut self, max: usize) -> (bool, Vec<u32>, Vec<u32>) {
        let (mut more, mut emptied, mut removed) = (0, 0, 0);
        let (mut empty, mut remove) = ([0; 64], [0; 64]);
        unsafe {
            hongsathep_clean_logs_kept(&mut self.0, max, &mut more, &mut empty, &mut emptied, &mut remove, &mut removed)
        };
        (more == 1, told(&empty, emptied), told(&remove, removed))
    }

    /// The files to remove.
    pub fn kill_logs(&mut self) -> Vec<u32> {
        let (mut remove, mut removed) = ([0; 64], 0);
        unsafe { hongsathep_kill_logs_kept(&mut self.0, &mut remove, &mut removed) };
        told(&remove, removed)
    }

    pub fn replay_record_id(&self) -> Option<u64> {
        let mut id = 0;
        hongsathep_replay_record_id(&self.0, &mut id).then_some(id)
    }

    pub fn num_dirty_logs(&self) -> usize {
        hongsathep_num_dirty_logs(&self.0)
    }

    pub fn has_log_files_to_read(&self) -> bool {
        hongsathep_has_log_files_to_read(&self.0)
    }
}

/// A list of the next id, and the id after it.
pub(crate) fn begin_record(tables: &Tables, next: NonZeroU64) -> Result<(List, NonZeroU64), Answer> {
    let mut list = List::new(tables, 0);
    let mut raised = next.get();
    done(hongsathep_begin_record(&mut raised, &mut list.head))?;
    Ok((list, NonZeroU64::new(raised).unwrap_or(next)))
}

/// What the end of a record tells: its length, where its file comes from (0 it goes on, 1 the pool, 2 a new one), and
/// the file's number.
pub(crate) struct Ended {
    pub size: usize,
    pub source: u64,
    pub file: u32,
}

/// Ends a record under a directory. A list that was made for another one is tested.
pub(crate) fn end_record(
    tables: &Tables,
    list: &List,
    overlays: &mut Overlays,
    queues: &mut Queues,
    next: NonZeroU64,
    out: &mut [u8],
) -> Result<Ended, Answer> {
    let (mut size, mut source, mut file) = (0, 0, 0);
    let (words, bytes, head) = (&mut overlays.words, &mut overlays.bytes, &mut overlays.head);
    let (t, l, i, c, q) = (&tables.0, &list.head, &list.items, &list.chunks, &mut queues.0);
    let (s, from, f) = (&mut size, &mut source, &mut file);
    done(if list.tables == *tables {
        unsafe { hongsathep_end_record_kept(t, l, i, c, head, words, bytes, q, next.get(), out, s, from, f) }
    } else {
        hongsathep_end_record(t, l, i, c, head, words, bytes, q, next.get(), out, s, from, f)
    })?;
    Ok(Ended { size: size as usize, source, file: file as u32 })
}

/// Clears a record; the position behind it, and its id.
pub(crate) fn end_read(
    tables: &Tables,
    log: &[u8],
    position: usize,
    overlays: &mut Overlays,
    next: &mut NonZeroU64,
) -> Result<(usize, u64), Refused> {
    let (mut raised, mut end, mut id, mut fault) = (next.get(), 0, 0, 0);
    let (head, words, bytes) = (&mut overlays.head, &mut overlays.words, &mut overlays.bytes);
    let (n, e, i, f) = (&mut raised, &mut end, &mut id, &mut fault);
    done(unsafe { hongsathep_end_read_kept(&tables.0, log, position, head, words, bytes, n, e, i, f) })
        .map_err(|answer| (answer, fault as usize))?;
    *next = NonZeroU64::new(raised).unwrap_or(*next);
    Ok((end as usize, id))
}

pub(crate) fn clear_replay_logs(overlays: &mut Overlays, queues: &mut Queues) {
    unsafe { hongsathep_clear_replay_logs_kept(&mut overlays.head, &mut queues.0) };
}

//! Commands by the crate's types, as long as they can hold what the script makes: a forged state is none of theirs.

use super::{
    fields::{files_in, salvaged, tables_in, written, Fields, Row},
    telling,
};
use hongsathep::*;
use std::num::NonZeroU64;

pub struct ByTypes {
    directory: Option<Directory>,
    image: Vec<u8>,
    log: Vec<u8>,
    chain: Option<Chain>,
    list: Option<ChangeList>,
    overlays: Option<Overlays>,
    queues: Option<Queues>,
    next: Option<NonZeroU64>,
    /// The place of the last refusal of a call that reads, where the types made that call.
    place: Option<Option<u64>>,
}

/// A chain of steps through one log: where it starts, whether it validates, how many steps it has.
struct Chain {
    position: usize,
    validate: bool,
    steps: usize,
}

fn number<T>(result: &Result<T, Error>) -> u64 {
    result.as_ref().err().and_then(Error::number).unwrap_or(0)
}

impl ByTypes {
    pub fn new() -> ByTypes {
        let nothing = Directory::builder().build().unwrap();
        ByTypes {
            list: Some(ChangeList::new(&nothing, 1)),
            directory: Some(nothing),
            image: Vec::new(),
            log: Vec::new(),
            chain: None,
            overlays: Some(Overlays::new()),
            queues: Some(Queues::new()),
            next: Some(NonZeroU64::MIN),
            place: Some(None),
        }
    }

    /// None where the types can't say.
    pub fn answer(&mut self, command: &[u8]) -> Option<Vec<u8>> {
        let mut fields = Fields(&command[1..]);
        let f = &mut fields;
        if matches!(command[0], 0x0b..=0x0e | 0x13 | 0x36..=0x38) {
            self.place = None;
        }
        match command[0] {
            0x01 => {
                self.directory = directory_of(&tables_in(command));
                self.chain = None;
                Some(vec![0])
            }
            0x02 => {
                let length = f.number(4) as usize;
                self.image = vec![f.number(1) as u8; length];
                Some(vec![0])
            }
            0x03 => {
                self.log = f.blob().to_vec();
                self.chain = None;
                Some(vec![0])
            }
            0x04 => Some(Row::default().number(checksum(f.blob()).into(), 4).0),
            0x05..=0x0a | 0x21 | 0x23 | 0x24 | 0xf0 => self.answer_of_list(command[0], f),
            0x0b | 0x0c => self.step(command[0], f),
            0x0d..=0x0f => self.answer_of_image(command[0], f),
            0x10 => Some(self.open(command)),
            0x11..=0x13 | 0x18 | 0x1c | 0x20 => self.answer_of_log(command[0], f),
            0x14..=0x17 | 0x19 | 0x1f => self.answer_of_queues(command[0], f),
            0x1a | 0x1b | 0x1d | 0x1e | 0x22 => self.answer_of_overlays(command[0], f),
            0x39 => self.salvage(f.number(4) as usize),
            0x30 => Some(Row::of(self.place?.is_some().into()).number(self.place?.unwrap_or(0), 8).0),
            _ => None,
        }
    }

    fn step(&mut self, opcode: u8, f: &mut Fields) -> Option<Vec<u8>> {
        if opcode == 0x0b {
            let position = f.number(8) as usize;
            self.chain = Some(Chain { position, validate: f.flag(), steps: 0 });
        } else if self.chain.as_ref()?.validate != f.flag() {
            self.chain = None;
        }
        let chain = self.chain.as_mut()?;
        let directory = self.directory.as_ref()?;
        let mut reader = LogReader::at(directory, &self.log, chain.position, chain.validate);
        for _ in 0..chain.steps {
            reader.step().unwrap();
        }
        let before = reader.offset();
        let step = reader.step();
        self.place = Some(step.as_ref().err().and_then(Error::position));
        if let Err(error) = step {
            assert_eq!(error.position(), Some(before as u64));
            return Some(vec![error.number()? as u8]);
        }
        chain.steps += 1;
        Some(stepped(&self.log, step.ok()?, reader.offset()))
    }

    fn salvage(&self, length: usize) -> Option<Vec<u8>> {
        let mut out = vec![0x5a; length];
        let done = salvage_into(self.directory.as_ref()?, &self.log, &mut out);
        let answer = number(&done);
        let (lines, size) = done.unwrap_or_default();
        let words = |line: &Line| match *line {
            Line::Kept { position, length, id } => [1, position, length, id],
            Line::Lost { position, length } => [0, position, length, 0],
        };
        Some(salvaged(answer, &lines.iter().map(words).collect::<Vec<_>>(), &out, size))
    }

    fn answer_of_image(&mut self, opcode: u8, f: &mut Fields) -> Option<Vec<u8>> {
        if opcode == 0x0f {
            let sum = checksum(&self.image);
            return Some(Row::default().number(self.image.len() as u64, 4).number(sum.into(), 4).0);
        }
        let (position, expected) = (f.number(8) as usize, f.number(8));
        // Beside a directory that breaks a rule nothing changes.
        let directory = self.directory.as_ref()?;
        let mut image = match Image::from_bytes(directory, self.image.clone()) {
            Ok(image) => image,
            Err(error) if opcode == 0x0d => return Some(Row::of(error.number()?).number(position as u64, 8).0),
            Err(error) => return Some(Row::of(error.number()?).number(position as u64, 8).number(0, 8).0),
        };
        let answer = if opcode == 0x0d {
            let replayed = image.replay(&self.log, position, expected);
            self.place = Some(replayed.as_ref().err().and_then(Error::position));
            Row::of(number(&replayed)).number(replayed.unwrap_or(position) as u64, 8).0
        } else {
            let ran = image.run(&self.log, position, expected);
            self.place = Some(Some(ran.fault));
            Row::of(ran.answer.number()).number(ran.position, 8).number(ran.count, 8).0
        };
        self.image = image.into_bytes();
        Some(answer)
    }

    fn answer_of_list(&mut self, opcode: u8, f: &mut Fields) -> Option<Vec<u8>> {
        match opcode {
            0x05 => {
                self.list = self.directory.as_ref().map(|directory| ChangeList::new(directory, f.number(8)));
                return Some(vec![0]);
            }
            0x21 | 0x24 => {
                self.list = None;
                return Some(vec![0]);
            }
            0x23 => {
                let (head, items, chunks) = self.list.as_ref()?.words();
                return Some(telling::list_sum(head, items, chunks));
            }
            _ => {}
        }
        // A list that was made for another directory is held to the present one by the tested calls alone.
        let directory = self.directory.as_ref()?;
        if self.list.as_ref()?.directory() != directory {
            self.list = None;
        }
        let list = self.list.as_mut()?;
        let done = match opcode {
            0x06 => list.insert_index(IndexTableId(f.number(2) as u16), f.number(8), f.number(1) as u8, f.blob()),
            0x07 => list.insert_value(ValueTableId(f.number(2) as u16), f.number(8), f.blob()),
            0x08 => {
                let table = RefCountTableId(f.number(2) as u16);
                list.insert_ref_count(table, f.number(8), f.number(1) as u8, f.blob())
            }
            0x09 => list.drop_table(IndexTableId(f.number(2) as u16)),
            0x0a => list.drop_ref_count_table(RefCountTableId(f.number(2) as u16)),
            _ => {
                let mut out = vec![0x5a; f.number(4) as usize];
                let size = list.write(&mut out);
                let (answer, size) = (number(&size), size.unwrap_or(0));
                return Some(written(Row::of(answer).number(size as u64, 4), &out, size));
            }
        };
        Some(vec![number(&done) as u8])
    }

    fn open(&mut self, command: &[u8]) -> Vec<u8> {
        let files = files_in(command);
        let found: Vec<Found> =
            files.iter().map(|(name, bytes)| Found { name, length: bytes.len() as u64, head: bytes }).collect();
        match Queues::open(&found) {
            Err(error) => vec![error.number().unwrap() as u8],
            Ok((queues, remove)) => {
                self.queues = Some(queues);
                self.overlays = Some(Overlays::new());
                self.next = Some(NonZeroU64::MIN);
                Row::of(0).nums(&wide(&remove)).0
            }
        }
    }

    fn answer_of_log(&mut self, opcode: u8, f: &mut Fields) -> Option<Vec<u8>> {
        match opcode {
            0x11 => {
                let nothing = Directory::builder().build().unwrap();
                let directory = self.directory.as_ref().unwrap_or(&nothing);
                let begun = ChangeList::begin(directory, self.next.as_mut()?);
                let row = Row::of(number(&begun));
                match begun {
                    Err(_) => Some(row.0),
                    Ok(list) => Some(row.number(self.list.insert(list).id(), 8).0),
                }
            }
            0x12 => self.end(f.number(4) as usize),
            0x13 => self.clear(f.number(8) as usize),
            0x18 => match (&mut self.overlays, &mut self.queues) {
                (Some(overlays), Some(queues)) => {
                    overlays.clear_replay_logs(queues);
                    Some(vec![0])
                }
                // 13 leaves both as they are.
                _ => None,
            },
            0x1c => {
                let overlays = self.overlays.as_ref()?;
                let last: Vec<u64> = (0..8).map(|column| overlays.last_record_id(column)).collect();
                Some(state(self.queues.as_ref()?, self.next?.get(), &last))
            }
            _ => {
                self.next = NonZeroU64::new(f.number(8));
                Some(vec![0])
            }
        }
    }

    fn end(&mut self, length: usize) -> Option<Vec<u8>> {
        // A state that is forged may keep the rules all the same: the end then moves the others.
        let (Some(list), Some(overlays), Some(queues), Some(next)) =
            (&self.list, &mut self.overlays, &mut self.queues, self.next)
        else {
            self.overlays = None;
            self.queues = None;
            return None;
        };
        let mut out = vec![0x5a; length];
        let ended = overlays.end_record(self.directory.as_ref()?, list, queues, next, &mut out);
        let row = Row::of(number(&ended));
        let (size, source, file) = ended.map_or((0, 0, 0), |ended| (ended.size, ended.source as u64, ended.file));
        assert!(size == 0 || queues.appending().is_some_and(|(number, _)| number == file));
        Some(written(row.number(size as u64, 4).number(source, 1).number(file.into(), 4), &out, size))
    }

    fn clear(&mut self, position: usize) -> Option<Vec<u8>> {
        let (Some(overlays), Some(next)) = (&mut self.overlays, &mut self.next) else {
            self.overlays = None;
            self.next = None;
            return None;
        };
        let cleared = overlays.end_read(self.directory.as_ref()?, &self.log, position, next);
        self.place = Some(cleared.as_ref().err().and_then(Error::position));
        let row = Row::of(number(&cleared));
        let (end, id) = cleared.unwrap_or((position, 0));
        Some(row.number(end as u64, 8).number(id, 8).0)
    }

    fn answer_of_queues(&mut self, opcode: u8, f: &mut Fields) -> Option<Vec<u8>> {
        if opcode == 0x1f {
            self.queues = None;
            return Some(vec![0]);
        }
        let queues = self.queues.as_mut()?;
        Some(match opcode {
            0x14 => Row::of(0).number(queues.flush_one(f.number(8)).is_some().into(), 1).0,
            0x15 => {
                let (position, validate) = (f.number(8) as usize, f.flag());
                let read = queues.read_next(&self.log, position, validate);
                let row = Row::of(number(&read));
                match read {
                    Ok(None) => vec![1],
                    Ok(Some(opening)) => row.number(opening.id, 8).number(opening.position as u64, 8).0,
                    Err(_) => row.0,
                }
            }
            0x16 => {
                let found = queues.replay_next();
                Row::of(0).number(found.is_some().into(), 1).number(found.unwrap_or(0).into(), 4).0
            }
            0x17 => {
                let cleaned = queues.clean_logs(f.number(8) as usize);
                let row = Row::of(0).number(cleaned.more.into(), 1);
                row.nums(&wide(&cleaned.empty)).nums(&wide(&cleaned.remove)).0
            }
            _ => Row::of(0).nums(&wide(&queues.kill_logs())).0,
        })
    }

    fn answer_of_overlays(&mut self, opcode: u8, f: &mut Fields) -> Option<Vec<u8>> {
        if opcode == 0x22 {
            self.overlays = None;
            return Some(vec![0]);
        }
        let overlays = self.overlays.as_ref()?;
        match opcode {
            0x1a => {
                let (kind, listed) = (f.number(1), f.flag());
                let (table, index) = (f.number(2) as u16, f.number(8));
                let found = match (kind, listed) {
                    (0, false) => overlays.index(IndexTableId(table), index),
                    (1, false) => overlays.value(ValueTableId(table), index),
                    (_, false) => overlays.ref_count(RefCountTableId(table), index),
                    (0, true) => overlays.with(self.list.as_ref()?).index(IndexTableId(table), index),
                    (1, true) => overlays.with(self.list.as_ref()?).value(ValueTableId(table), index),
                    (_, true) => overlays.with(self.list.as_ref()?).ref_count(RefCountTableId(table), index),
                };
                Some(Row::of(0).number(found.is_some().into(), 1).blob(found.unwrap_or_default()).0)
            }
            0x1b => {
                let (listed, table, index) = (f.flag(), ValueTableId(f.number(2) as u16), f.number(8));
                let mut dest = vec![0x5a; f.number(4) as usize];
                let found = if listed {
                    overlays.with(self.list.as_ref()?).copy_value(table, index, &mut dest)
                } else {
                    overlays.copy_value(table, index, &mut dest)
                };
                Some(Row::of(0).number(found.into(), 1).blob(&dest).0)
            }
            0x1d => {
                let (head, words, bytes) = overlays.words();
                Some(telling::overlays(head, words, bytes))
            }
            _ => Some(Row::default().number(overlays.last_record_id(f.number(8)), 8).0),
        }
    }
}

fn wide(numbers: &[u32]) -> Vec<u64> {
    numbers.iter().map(|number| u64::from(*number)).collect()
}

fn directory_of(tables: &[[u64; 5]]) -> Option<Directory> {
    let mut builder = Directory::builder();
    for [kind, number, column, count, length] in tables.iter().copied() {
        let (number, column, count) = (number as u16, column as u8, count as u16);
        builder = match kind {
            0 if length == 0 => builder.index(number, column, count),
            1 => builder.value(number, column, count, length as u16),
            2 if length == 0 => builder.ref_count(number, column, count),
            _ => return None,
        };
    }
    builder.build().ok()
}

fn stepped(log: &[u8], action: Action, offset: usize) -> Vec<u8> {
    let (tag, table, index, id, payload) = match action {
        Action::BeginRecord { id } => (1, 0, 0, id, &[][..]),
        Action::InsertIndex { table, index, entries } => (2, table.0, index, 0, with_mask(log, entries, 8)),
        Action::InsertValue { table, index, value } => (3, table.0, index, 0, value),
        Action::EndRecord => (4, 0, 0, 0, &[][..]),
        Action::DropTable(table) => (5, table.0, 0, 0, &[][..]),
        Action::InsertRefCount { table, index, entries } => (6, table.0, index, 0, with_mask(log, entries, 16)),
        Action::DropRefCountTable(table) => (7, table.0, 0, 0, &[][..]),
    };
    let start = if payload.is_empty() { 0 } else { place_of(log, payload) };
    let row = Row::of(0).number(tag, 1).number(table.into(), 2).number(index, 8).number(id, 8);
    row.number(start as u64, 8).number(payload.len() as u64, 8).number(offset as u64, 8).0
}

/// Where a part of the log lies in it.
fn place_of(log: &[u8], part: &[u8]) -> usize {
    part.as_ptr() as usize - log.as_ptr() as usize
}

/// The entries with the mask before them, having looked that there is one for each bit.
fn with_mask<'a>(log: &'a [u8], entries: Entries, size: usize) -> &'a [u8] {
    assert_eq!(entries.iter().count(), entries.mask().count_ones() as usize);
    assert_eq!(entries.bytes().len(), size * entries.mask().count_ones() as usize);
    let start = place_of(log, entries.bytes()) - 8;
    &log[start..start + 8 + entries.bytes().len()]
}

/// STATE, of the queues' own words about themselves.
fn state(queues: &Queues, next: u64, last_ids: &[u64]) -> Vec<u8> {
    let (appending, reading) = (queues.appending(), queues.reading());
    let (file, size) = appending.unwrap_or_default();
    let row = Row::of(appending.is_some().into()).number(file.into(), 4).number(size, 8);
    let row = row.number(reading.is_some().into(), 1).number(reading.unwrap_or(0).into(), 4);
    let row = row.nums(&wide(&queues.read_queue())).nums(&wide(&queues.cleanup_queue())).nums(&wide(&queues.pool()));
    let replay = queues.replay_queue();
    let row = row.number(replay.len() as u64, 2);
    let row = replay.iter().fold(row, |row, (file, id)| row.number((*file).into(), 4).number(*id, 8));
    let row = row.number(queues.next_number().into(), 4).number(next, 8).number(queues.is_dirty().into(), 1);
    last_ids.iter().fold(row, |row, id| row.number(*id, 8)).0
}

//! Every command by the tested calls, over words that may be forged.

use super::{
    fields::{files_in, salvaged, tables_in, written, Fields, Row},
    telling::{self, Part, LIST, SHARED},
};
use hongsathep::raw::*;

pub struct ByWords {
    tables: Vec<u64>,
    image: Vec<u8>,
    log: Vec<u8>,
    reader: Vec<u64>,
    list: Keys,
    overlays: Keys,
    queues: Vec<u64>,
    next: u64,
    checking: Checking,
    /// The place of the last refusal of a call that reads; none after one that was done.
    place: Option<u64>,
}

/// A log checked in pieces, by the request's own words: what a run over all that was taken reports.
struct Checking {
    tables: Vec<u64>,
    first: u64,
    taken: Vec<u8>,
    closed: bool,
}

impl Checking {
    fn new(tables: Vec<u64>, first: u64) -> Checking {
        Checking { tables, first, taken: Vec::new(), closed: false }
    }
}

/// A list or the overlays: head and two memories. The counts stand at a place of the head.
struct Keys {
    head: Vec<u64>,
    words: Vec<u64>,
    bytes: Vec<u8>,
    counts: usize,
    parts: &'static [Part; 3],
}

impl Keys {
    fn list() -> Keys {
        let (head, words, bytes) = (vec![0; LIST_HEAD_WORDS], vec![0; LIST_WORDS], vec![0; LIST_BYTES]);
        Keys { head, words, bytes, counts: 1, parts: &LIST }
    }

    fn overlays() -> Keys {
        let (head, words) = (vec![0; OVERLAYS_HEAD_WORDS], vec![0; OVERLAYS_WORDS]);
        Keys { head, words, bytes: vec![0; OVERLAYS_BYTES], counts: 0, parts: &SHARED }
    }

    /// Appends an entry untested, where it belongs in the order if that ascends; beyond the room only the count rises.
    fn forge(&mut self, kind: usize, row: [u64; 4], fill: u8) {
        let Part { room, words, bytes, unit } = self.parts[kind];
        let count = self.head[self.counts + kind] as usize;
        if count >= room {
            self.head[self.counts + kind] = room as u64 + 1;
            return;
        }
        let rows = words + 4 * count;
        let order = words + 4 * room;
        let key_at = |place: u64| {
            let at = words + 4 * place as usize;
            (self.words[at], self.words[at + 1])
        };
        let keys: Vec<_> = self.words[order..order + count].iter().map(|place| key_at(*place)).collect();
        let ascends = keys.windows(2).all(|pair| pair[0] < pair[1]);
        let at = if ascends { keys.iter().filter(|key| **key < (row[0], row[1])).count() } else { count };
        self.words[order..order + count + 1].copy_within(at..count, at + 1);
        self.words[order + at] = count as u64;
        self.words[rows..rows + 4].copy_from_slice(&row);
        self.bytes[bytes + unit * count..bytes + unit * (count + 1)].fill(fill);
        self.head[self.counts + kind] = count as u64 + 1;
    }
}

impl ByWords {
    pub fn new() -> ByWords {
        let mut words = ByWords {
            tables: Vec::new(),
            image: Vec::new(),
            log: Vec::new(),
            reader: vec![0; READER_WORDS],
            list: Keys::list(),
            overlays: Keys::overlays(),
            queues: vec![0; QUEUES_WORDS],
            next: 1,
            checking: Checking::new(Vec::new(), 1),
            place: None,
        };
        hongsathep_reader_new(&mut words.reader, 0, false);
        hongsathep_list_new(&mut words.list.head, 1);
        hongsathep_overlays_new(&mut words.overlays.head);
        hongsathep_queues_new(&mut words.queues);
        words
    }

    pub fn answer(&mut self, command: &[u8]) -> Vec<u8> {
        let mut fields = Fields(&command[1..]);
        let f = &mut fields;
        match command[0] {
            0x01 => {
                let row = |[kind, number, column, count, length]: [u64; 5]| [kind, number, column, count, length, 0];
                self.tables = tables_in(command).into_iter().flat_map(row).collect();
                vec![0]
            }
            0x02 => {
                let length = f.number(4) as usize;
                self.image = vec![f.number(1) as u8; length];
                vec![0]
            }
            0x03 => {
                self.log = f.blob().to_vec();
                vec![0]
            }
            0x04 => Row::default().number(hongsathep_checksum(f.blob()).into(), 4).0,
            0x05..=0x0a | 0x21 | 0x23 | 0x24 | 0xf0 | 0xf2 => self.answer_of_list(command[0], f),
            0x0b..=0x0f => self.answer_of_reading(command[0], f),
            0x10 => self.open(command),
            0x11..=0x13 | 0x18 | 0x1c | 0x20 => self.answer_of_log(command[0], f),
            0x14..=0x17 | 0x19 | 0x1f => self.answer_of_queues(command[0], f),
            0x1a | 0x1b | 0x1d | 0x1e | 0x22 => self.answer_of_overlays(command[0], f),
            0x30 => Row::of(self.place.is_some().into()).number(self.place.unwrap_or(0), 8).0,
            0x36..=0x38 => self.answer_of_checker(command[0], f),
            0x39 => self.salvage(f.number(4) as usize),
            // The form in which a directory is handed on: here it is always words.
            0xf1 => vec![0],
            _ => vec![0xff],
        }
    }

    fn answer_of_reading(&mut self, opcode: u8, f: &mut Fields) -> Vec<u8> {
        let (tables, log, image) = (&self.tables, &self.log, &mut self.image);
        let (mut end, mut count, mut fault) = (0, 0, 0);
        match opcode {
            0x0b => {
                let position = f.number(8) as usize;
                hongsathep_reader_new(&mut self.reader, position, f.flag());
                self.step()
            }
            0x0c => {
                self.reader[3] = f.flag().into();
                self.step()
            }
            0x0d => {
                let (position, expected) = (f.number(8) as usize, f.number(8));
                let answer = hongsathep_replay(tables, log, position, expected, image, &mut end, &mut fault);
                self.place = (answer != 0).then_some(fault);
                Row::of(answer).number(end, 8).0
            }
            0x0e => {
                let (position, expected) = (f.number(8) as usize, f.number(8));
                let answer = hongsathep_run(tables, log, position, expected, image, &mut end, &mut count, &mut fault);
                self.place = (answer != 0).then_some(fault);
                Row::of(answer).number(end, 8).number(count, 8).0
            }
            _ => Row::default().number(image.len() as u64, 4).number(hongsathep_checksum(image).into(), 4).0,
        }
    }

    fn salvage(&self, length: usize) -> Vec<u8> {
        let (mut out, mut list, mut lines, mut size) = (vec![0x5a; length], [0; SALVAGE_WORDS], 0, 0);
        let answer = hongsathep_salvage(&self.tables, &self.log, &mut out, &mut list, &mut lines, &mut size);
        let words: Vec<[u64; 4]> = list.chunks(4).take(lines as usize).map(|line| line.try_into().unwrap()).collect();
        salvaged(answer, &words, &out, size as usize)
    }

    fn answer_of_checker(&mut self, opcode: u8, f: &mut Fields) -> Vec<u8> {
        if opcode == 0x36 {
            self.checking = Checking::new(self.tables.clone(), f.number(8));
        }
        let c = &mut self.checking;
        let mut joined = c.taken.clone();
        if opcode == 0x37 {
            joined.extend(f.blob());
        }
        let (mut end, mut count, mut fault) = (0, 0, 0);
        let image = &mut vec![0; hongsathep_image_length(&c.tables)];
        let run = hongsathep_run(&c.tables, &joined, 0, c.first, image, &mut end, &mut count, &mut fault);
        let answer = match run {
            13 => 13,
            _ if c.closed => 14,
            1 | 2 if opcode != 0x38 => 0,
            _ => run,
        };
        if answer > 12 {
            (end, count, fault) = (c.taken.len() as u64, 0, c.taken.len() as u64);
        } else {
            (c.taken, c.closed) = (joined, opcode == 0x38);
        }
        self.place = (answer != 0).then_some(fault);
        let row = Row::of(answer);
        if opcode == 0x38 { row.number(end, 8).number(count, 8).0 } else { row.0 }
    }

    fn step(&mut self) -> Vec<u8> {
        let [mut tag, mut table, mut index, mut start, mut length, mut fault] = [0; 6];
        let (a, b, c, d, e) = (&mut tag, &mut table, &mut index, &mut start, &mut length);
        let answer = hongsathep_next(&self.tables, &self.log, &mut self.reader, a, b, c, d, e, &mut fault);
        self.place = (answer != 0).then_some(fault);
        if answer != 0 {
            return vec![answer as u8];
        }
        let id = if tag == 1 { self.reader[1] } else { 0 };
        let start = if length == 0 { 0 } else { start };
        let row = Row::of(0).number(tag, 1).number(table, 2).number(index, 8).number(id, 8);
        row.number(start, 8).number(length, 8).number(self.reader[0], 8).0
    }

    fn answer_of_list(&mut self, opcode: u8, f: &mut Fields) -> Vec<u8> {
        let tables = &self.tables;
        let Keys { head, words, bytes, .. } = &mut self.list;
        match opcode {
            0x05 => vec![hongsathep_list_new(head, f.number(8)) as u8],
            0x06 | 0x08 => {
                let (table, index, slot) = (f.number(2) as u16, f.number(8), f.number(1) as u8);
                let insert = if opcode == 6 { hongsathep_insert_index } else { hongsathep_insert_ref_count };
                vec![insert(tables, head, words, bytes, table, index, slot, f.blob()) as u8]
            }
            0x07 => {
                let (table, index) = (f.number(2) as u16, f.number(8));
                vec![hongsathep_insert_value(tables, head, words, bytes, table, index, f.blob()) as u8]
            }
            0x09 => vec![hongsathep_drop_table(tables, head, words, bytes, f.number(2) as u16) as u8],
            0x0a => vec![hongsathep_drop_ref_count_table(tables, head, words, bytes, f.number(2) as u16) as u8],
            0x21 => {
                let (kind, table, index, mask) = (f.number(1) as usize, f.number(2), f.number(8), f.number(8));
                let (fill, length) = (f.number(1) as u8, f.number(2));
                let id = head[0];
                self.list.forge(kind, [table, index, id, if kind == 1 { length } else { mask }], fill);
                vec![0]
            }
            0x23 => telling::list_sum(head, words, bytes),
            0x24 => {
                let at = if f.number(1) == 2 { 21 } else { 4 };
                let count = head[at] as usize;
                if count < 16 {
                    head[at + 1 + count] = f.number(2);
                }
                head[at] = (count as u64 + 1).min(17);
                vec![0]
            }
            0xf2 => {
                let mut size = 0;
                let answer = hongsathep_record_size(tables, head, words, bytes, &mut size);
                Row::of(answer).number(size, 4).0
            }
            _ => {
                let (mut out, mut size) = (vec![0x5a; f.number(4) as usize], 0);
                let answer = hongsathep_flush_to_file(tables, head, words, bytes, &mut out, &mut size);
                written(Row::of(answer).number(size, 4), &out, size as usize)
            }
        }
    }

    fn open(&mut self, command: &[u8]) -> Vec<u8> {
        let files = files_in(command);
        let names: Vec<u8> = files.iter().flat_map(|(name, _)| name.iter().copied()).collect();
        let name_lengths: Vec<usize> = files.iter().map(|(name, _)| name.len()).collect();
        let lengths: Vec<u64> = files.iter().map(|(_, bytes)| bytes.len() as u64).collect();
        let head = |bytes: &[u8]| bytes.iter().copied().chain([0; 9]).take(9).collect::<Vec<u8>>();
        let heads: Vec<u8> = files.iter().flat_map(|(_, bytes)| head(bytes)).collect();
        let (mut remove, mut removed) = (vec![0; files.len()], 0);
        let (r, q) = (&mut removed, &mut self.queues);
        let answer = hongsathep_open(&names, &name_lengths, &lengths, &heads, &mut remove, r, q);
        if answer != 0 {
            return vec![answer as u8];
        }
        hongsathep_overlays_new(&mut self.overlays.head);
        self.next = 1;
        Row::of(0).nums(&remove[..removed as usize]).0
    }

    fn answer_of_log(&mut self, opcode: u8, f: &mut Fields) -> Vec<u8> {
        match opcode {
            0x11 => {
                let answer = hongsathep_begin_record(&mut self.next, &mut self.list.head);
                let row = Row::of(answer);
                if answer == 0 {
                    row.number(self.list.head[0], 8).0
                } else {
                    row.0
                }
            }
            0x12 => {
                let (mut out, next) = (vec![0x5a; f.number(4) as usize], self.next);
                let [mut size, mut source, mut file] = [0; 3];
                let (l, o) = (&self.list, &mut self.overlays);
                let answer = hongsathep_end_record(
                    &self.tables,
                    &l.head,
                    &l.words,
                    &l.bytes,
                    &mut o.head,
                    &mut o.words,
                    &mut o.bytes,
                    &mut self.queues,
                    next,
                    &mut out,
                    &mut size,
                    &mut source,
                    &mut file,
                );
                let row = Row::of(answer).number(size, 4).number(source, 1).number(file, 4);
                written(row, &out, size as usize)
            }
            0x13 => {
                let (position, [mut end, mut id, mut fault]) = (f.number(8) as usize, [0; 3]);
                let (o, next) = (&mut self.overlays, &mut self.next);
                let (h, w, b) = (&mut o.head, &mut o.words, &mut o.bytes);
                let (e, i, at) = (&mut end, &mut id, &mut fault);
                let answer = hongsathep_end_read(&self.tables, &self.log, position, h, w, b, next, e, i, at);
                self.place = (answer != 0).then_some(fault);
                Row::of(answer).number(end, 8).number(id, 8).0
            }
            0x18 => {
                let o = &mut self.overlays;
                vec![hongsathep_clear_replay_logs(&mut o.head, &o.words, &o.bytes, &mut self.queues) as u8]
            }
            0x1c => telling::state(&self.queues, self.next, &self.overlays.head[3..]),
            _ => {
                self.next = f.number(8);
                vec![0]
            }
        }
    }

    fn answer_of_queues(&mut self, opcode: u8, f: &mut Fields) -> Vec<u8> {
        let queues = &mut self.queues;
        let [mut told, mut number, mut count] = [0; 3];
        let (mut empty, mut remove) = ([0; 64], [0; 64]);
        match opcode {
            0x14 => {
                let answer = hongsathep_flush_one(queues, f.number(8), &mut told, &mut number);
                Row::of(answer).number(told, 1).0
            }
            0x15 => {
                let (position, validate) = (f.number(8) as usize, f.flag());
                let mut reader = [0; READER_WORDS];
                let answer = hongsathep_read_next(queues, &self.log, position, validate, &mut number, &mut reader);
                let row = Row::of(answer);
                if answer == 0 {
                    row.number(reader[1], 8).number(reader[0], 8).0
                } else {
                    row.0
                }
            }
            0x16 => {
                let answer = hongsathep_replay_next(queues, &mut told, &mut number);
                Row::of(answer).number(told, 1).number(number, 4).0
            }
            0x17 => {
                let max = f.number(8) as usize;
                let (n, r) = (&mut number, &mut count);
                let answer = hongsathep_clean_logs(queues, max, &mut told, &mut empty, n, &mut remove, r);
                let row = Row::of(answer).number(told, 1).nums(&empty[..number as usize]);
                row.nums(&remove[..count as usize]).0
            }
            0x19 => {
                let answer = hongsathep_kill_logs(queues, &mut remove, &mut count);
                Row::of(answer).nums(&remove[..count as usize]).0
            }
            _ => {
                self.queues = forged_queues(f);
                vec![0]
            }
        }
    }

    fn answer_of_overlays(&mut self, opcode: u8, f: &mut Fields) -> Vec<u8> {
        let (l, o) = (&self.list, &self.overlays);
        match opcode {
            0x1a => {
                let (kind, listed) = (f.number(1), f.flag());
                let (table, index) = (f.number(2) as u16, f.number(8));
                let [mut memory, mut place, mut length] = [0; 3];
                let (m, p, n) = (&mut memory, &mut place, &mut length);
                let (h, w, b) = (&o.head, &o.words, &o.bytes);
                let answer = if listed {
                    hongsathep_lookup_listed(kind, &l.head, &l.words, &l.bytes, h, w, b, table, index, m, p, n)
                } else {
                    hongsathep_lookup(kind, h, w, b, table, index, m, p, n)
                };
                let bytes = if memory == 1 { &l.bytes } else { b };
                Row::of(answer).number(u64::from(memory != 0), 1).blob(&bytes[place as usize..][..length as usize]).0
            }
            0x1b => {
                let (listed, table, index) = (f.flag(), f.number(2) as u16, f.number(8));
                let (mut dest, mut found) = (vec![0x5a; f.number(4) as usize], 0);
                let (h, w, b, d) = (&o.head, &o.words, &o.bytes, &mut dest);
                let answer = if listed {
                    hongsathep_value_listed(&l.head, &l.words, &l.bytes, h, w, b, table, index, d, &mut found)
                } else {
                    hongsathep_value(h, w, b, table, index, d, &mut found)
                };
                Row::of(answer).number(found, 1).blob(&dest).0
            }
            0x1d => telling::overlays(&o.head, &o.words, &o.bytes),
            0x1e => Row::default().number(hongsathep_last_record_id(&o.head, f.number(8)), 8).0,
            _ => {
                let (kind, table, index) = (f.number(1) as usize, f.number(2), f.number(8));
                let (id, mask) = (f.number(8), f.number(8));
                let (fill, length) = (f.number(1) as u8, f.number(2));
                self.overlays.forge(kind, [table, index, id, if kind == 1 { length } else { mask }], fill);
                vec![0]
            }
        }
    }
}

fn forged_queues(f: &mut Fields) -> Vec<u64> {
    let mut words = vec![0; QUEUES_WORDS];
    words[0] = f.number(1).min(1);
    words[1] = f.number(4);
    words[2] = f.number(8);
    words[68] = f.number(1).min(1);
    words[69] = f.number(4);
    for at in [3, 70, 135, 200] {
        let numbers = f.nums();
        words[at] = numbers.len() as u64;
        words[at + 1..].iter_mut().take(64).zip(&numbers).for_each(|(word, number)| *word = *number);
    }
    words[329] = f.number(4);
    words[330] = f.number(1).min(1);
    words
}

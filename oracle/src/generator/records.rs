//! Random records: actions that fit a directory, actions that don't, and damage.

use super::{log_bytes::LogBytes, Generator};
use crate::{
    directory::{Directory, Kind, Table},
    protocol::tag,
};
use std::ops::RangeInclusive;

/// Actions that are refused inside a record. The large indices are 0 or negative to a program that
/// keeps too few of their bits.
pub const FAULTS: [fn(&mut Generator, &mut LogBytes, &Directory); 9] = [
    Generator::unknown_tag,
    Generator::begin_inside,
    Generator::insert_into_unknown_table,
    Generator::drop_unknown_table,
    |generator, log, directory| generator.index_too_large(log, directory, |count| count),
    |generator, log, directory| generator.index_too_large(log, directory, |_| 1 << 16),
    |generator, log, directory| generator.index_too_large(log, directory, |_| 1 << 32),
    |generator, log, directory| generator.index_too_large(log, directory, |_| 1 << 63),
    |generator, log, directory| generator.index_too_large(log, directory, |_| u64::MAX),
];

impl Generator {
    /// One record or more, each with its right checksum.
    pub fn records(&mut self, directory: &Directory, most: usize, most_actions: usize) -> LogBytes {
        let mut log = LogBytes::default();
        for _ in 0..self.random.between(1, most) {
            let id = self.id();
            self.record(&mut log, id, directory, most_actions);
        }
        log
    }

    /// Likewise, with ids that rise by 1, and start again at 0 behind the last.
    pub fn run_of_records(
        &mut self,
        directory: &Directory,
        first_id: u64,
        count: usize,
        most_actions: usize,
    ) -> LogBytes {
        let mut log = LogBytes::default();
        for place in 0..count as u64 {
            self.record(&mut log, first_id.wrapping_add(place), directory, most_actions);
        }
        log
    }

    pub fn record(
        &mut self,
        log: &mut LogBytes,
        id: u64,
        directory: &Directory,
        most_actions: usize,
    ) {
        log.begin(id);
        self.actions(log, directory, most_actions);
        log.end();
    }

    /// A record of more than 65,536 bytes: its keys repeat. None if no table is one of reference
    /// counts.
    pub fn long_record(&mut self, directory: &Directory) -> Option<LogBytes> {
        let mut ref_counts = directory.tables.iter().filter(|table| table.kind == Kind::RefCount);
        let table = ref_counts.next()?;
        let mut log = LogBytes::default();
        log.begin(self.id());
        while log.bytes.len() < 66_000 {
            self.full_chunk(&mut log, table);
            self.actions(&mut log, directory, 1);
        }
        log.end();
        Some(log)
    }

    /// Bytes without a plan, most of them tags.
    pub fn noise_log(&mut self, directory: &Directory) -> LogBytes {
        let mut log = LogBytes::default();
        if self.random.one_in(2) {
            log.begin(self.id());
            self.actions(&mut log, directory, 1);
        }
        for _ in 0..self.random.below(40) {
            let bound = self.random.pick(&[9, 9, 9, 256]);
            log.bytes.push(self.random.below(bound) as u8);
        }
        log
    }

    /// A log short enough to be cut at every byte.
    pub fn short_log(&mut self, make: impl Fn(&mut Generator) -> LogBytes) -> LogBytes {
        let longest = if self.small { 60 } else { 250 };
        loop {
            let log = make(self);
            if log.bytes.len() <= longest {
                return log;
            }
        }
    }

    pub fn id(&mut self) -> u64 {
        let any = self.random.number();
        self.random.pick(&[0, 1, 2, any, u64::MAX])
    }

    pub fn actions(&mut self, log: &mut LogBytes, directory: &Directory, most: usize) {
        if directory.tables.is_empty() {
            return;
        }
        for _ in 0..self.random.between(0, most) {
            self.action(log, directory);
        }
    }

    /// An action that fits the directory, which mustn't be empty.
    fn action(&mut self, log: &mut LogBytes, directory: &Directory) {
        let table = self.random.pick(&directory.tables);
        match drop_tag_of(table.kind).filter(|_| self.random.one_in(5)) {
            Some(tag) => log.drop_table(tag, table.number),
            None => {
                let index = self.index_below(table.count);
                let payload = self.payload(table.kind, table.length);
                log.keyed(insert_tag_of(table.kind), table.number, index, &payload);
            }
        }
    }

    pub fn index_below(&mut self, count: u16) -> u64 {
        let any = self.random.below(count as usize);
        self.random.pick(&[0, count as usize - 1, any]) as u64
    }

    fn payload(&mut self, kind: Kind, value_length: u16) -> Vec<u8> {
        let entry_bytes = match kind {
            Kind::Value => return self.random.bytes(value_length as usize),
            Kind::Index => 8,
            Kind::RefCount => 16,
        };
        let mask = self.mask();
        self.entries(mask, entry_bytes)
    }

    fn entries(&mut self, mask: u64, entry_bytes: usize) -> Vec<u8> {
        let entries = self.random.bytes(mask.count_ones() as usize * entry_bytes);
        [&mask.to_le_bytes()[..], &entries].concat()
    }

    /// The longest action there is; the table must be one of reference counts.
    fn full_chunk(&mut self, log: &mut LogBytes, table: &Table) {
        let payload = self.entries(u64::MAX, 16);
        log.keyed(tag::REF_COUNT, table.number, self.index_below(table.count), &payload);
    }

    fn mask(&mut self) -> u64 {
        let bit = 1 << self.random.below(64);
        let other_bit = 1 << self.random.below(64);
        let many = self.random.number();
        self.random.pick(&[0, bit, bit, bit | other_bit, 1, 1 << 63, many, u64::MAX])
    }

    fn unknown_tag(&mut self, log: &mut LogBytes, _: &Directory) {
        let tag = self.random.between(8, 256) as u8;
        let behind = self.random.below(20);
        log.put(&[&[tag], &self.random.bytes(behind)]);
    }

    fn begin_inside(&mut self, log: &mut LogBytes, _: &Directory) {
        log.begin_inside(self.id());
    }

    fn insert_into_unknown_table(&mut self, log: &mut LogBytes, directory: &Directory) {
        let kind = self.random.pick(&Kind::ALL);
        let number = self.unknown_number(directory, kind);
        let payload = self.payload(kind, 20);
        log.keyed(insert_tag_of(kind), number, 0, &payload);
    }

    fn drop_unknown_table(&mut self, log: &mut LogBytes, directory: &Directory) {
        let (kind, tag) = self
            .random
            .pick(&[(Kind::Index, tag::DROP_INDEX), (Kind::RefCount, tag::DROP_REF_COUNT)]);
        log.drop_table(tag, self.unknown_number(directory, kind));
    }

    /// A number that the kind doesn't have; often another kind has it.
    pub fn unknown_number(&mut self, directory: &Directory, kind: Kind) -> u16 {
        let others = directory.tables.iter().map(|table| table.number);
        let mut unknown: Vec<u16> =
            others.filter(|number| directory.find(kind, *number).is_none()).collect();
        while unknown.len() < 2 {
            let any = self.random.number() as u16;
            unknown.extend(Some(any).filter(|_| directory.find(kind, any).is_none()));
        }
        self.random.pick(&unknown)
    }

    /// Nothing, if there is no table.
    fn index_too_large(
        &mut self,
        log: &mut LogBytes,
        directory: &Directory,
        index: fn(u64) -> u64,
    ) {
        if directory.tables.is_empty() {
            return;
        }
        let table = self.random.pick(&directory.tables);
        let payload = self.payload(table.kind, table.length);
        let index = index(table.count.into());
        log.keyed(insert_tag_of(table.kind), table.number, index, &payload);
    }

    /// So many bytes behind a tag, mostly the table and index of a table of the directory.
    pub fn key_fields(&mut self, directory: &Directory, tag: u8, length: usize) -> Vec<u8> {
        let fitting: Vec<Table> = directory
            .tables
            .iter()
            .copied()
            .filter(|table| {
                tag == insert_tag_of(table.kind) || Some(tag) == drop_tag_of(table.kind)
            })
            .collect();
        let mut fields = self.random.bytes(length + 10);
        if !fitting.is_empty() && !self.random.one_in(4) {
            let table = self.random.pick(&fitting);
            fields[..2].copy_from_slice(&table.number.to_le_bytes());
            if !self.random.one_in(4) {
                let index = self.index_below(table.count);
                fields[2..10].copy_from_slice(&index.to_le_bytes());
            }
        }
        fields.truncate(length);
        fields
    }

    /// Changes the bytes of a log somewhere; starts and ends stay those of the whole log.
    pub fn damage(&mut self, log: &mut LogBytes) {
        // Earlier damage may have left nothing.
        if !log.bytes.is_empty() {
            let place = self.random.below(log.bytes.len());
            self.damage_at(log, place);
        }
    }

    /// The same, most often in one of the last records or actions: so many bytes before the end.
    pub fn damage_near_the_end(&mut self, log: &mut LogBytes, most: usize) {
        let before = self.random.between(1, most.min(log.bytes.len()));
        self.damage_at(log, log.bytes.len() - before);
    }

    fn damage_at(&mut self, log: &mut LogBytes, place: usize) {
        let any = self.random.number() as u8;
        match self.random.below(6) {
            0 => log.bytes[place] ^= 1 << self.random.below(8),
            1 => log.bytes.insert(place, any),
            2 => {
                log.bytes.remove(place);
            }
            3 => log.bytes.truncate(place + 1),
            4 => self.change_a_tag(log),
            _ => self.change_a_checksum(log),
        }
    }

    fn change_a_tag(&mut self, log: &mut LogBytes) {
        let at = self.random.pick(&log.ends);
        let tag = self.random.below(10) as u8;
        if let Some(byte) = log.bytes.get_mut(at) {
            *byte = tag;
        }
    }

    /// Where a record ends there are four bytes of checksum, unless other damage has moved them.
    fn change_a_checksum(&mut self, log: &mut LogBytes) {
        let mut record_ends = log.starts[1..].to_vec();
        record_ends.extend(log.ends.last());
        let at = self.random.pick(&record_ends) - 1 - self.random.below(4);
        if let Some(byte) = log.bytes.get_mut(at) {
            *byte ^= 1 << self.random.below(8);
        }
    }
}

/// So many bytes stand behind a tag at most: two more than the longest part of fixed length.
const MOST_BEHIND: usize = 12;

/// Tags, each with every small number of bytes behind it.
pub fn with_few_bytes(tags: RangeInclusive<u8>) -> Vec<(u8, usize)> {
    tags.flat_map(|tag| (0..=MOST_BEHIND).map(move |behind| (tag, behind))).collect()
}

/// The known tags, and a few of the others.
pub fn known_tags_with_few_bytes() -> Vec<(u8, usize)> {
    let known = with_few_bytes(tag::BEGIN..=tag::DROP_REF_COUNT);
    let unknown = [(8, 0), (255, MOST_BEHIND)];
    [&[(0, 0), (0, MOST_BEHIND)], &known[..], &unknown].concat()
}

fn insert_tag_of(kind: Kind) -> u8 {
    match kind {
        Kind::Index => tag::INDEX,
        Kind::Value => tag::VALUE,
        Kind::RefCount => tag::REF_COUNT,
    }
}

fn drop_tag_of(kind: Kind) -> Option<u8> {
    match kind {
        Kind::Index => Some(tag::DROP_INDEX),
        Kind::Value => None,
        Kind::RefCount => Some(tag::DROP_REF_COUNT),
    }
}

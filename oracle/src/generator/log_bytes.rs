//! Log bytes as they are put together, with the places that damage and cuts aim at.

use crate::protocol::tag;

#[derive(Default)]
pub struct LogBytes {
    pub bytes: Vec<u8>,
    /// Where each record starts.
    pub starts: Vec<usize>,
    /// Where each action ends.
    pub ends: Vec<usize>,
}

impl LogBytes {
    pub fn begin(&mut self, id: u64) {
        self.starts.push(self.bytes.len());
        self.begin_inside(id);
    }

    /// A begin that starts no record, as it stands inside another.
    pub fn begin_inside(&mut self, id: u64) {
        self.put(&[&[tag::BEGIN], &id.to_le_bytes()]);
    }

    pub fn keyed(&mut self, tag: u8, table: u16, index: u64, payload: &[u8]) {
        self.put(&[&[tag], &table.to_le_bytes(), &index.to_le_bytes(), payload]);
    }

    pub fn drop_table(&mut self, tag: u8, table: u16) {
        self.put(&[&[tag], &table.to_le_bytes()]);
    }

    /// The end tag with the checksum of the record so far.
    pub fn end(&mut self) {
        let start = *self.starts.last().expect("a record is begun");
        let covered = [&self.bytes[start..], &[tag::END]].concat();
        self.put(&[&[tag::END], &crc32fast::hash(&covered).to_le_bytes()]);
    }

    pub fn put(&mut self, parts: &[&[u8]]) {
        self.bytes.extend(parts.concat());
        self.ends.push(self.bytes.len());
    }

    pub fn actions_before(&self, cut: usize) -> usize {
        self.ends.iter().filter(|end| **end <= cut).count()
    }
}

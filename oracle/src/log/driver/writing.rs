//! WRITE and SIZE, additions to the run protocol: the list's record as `flush_to_file` writes it, with
//! its items in document 01's order, and its length.

use super::Driver;
use crate::{
    protocol::{number, put_blob, Fields, Script},
    scratch::Scratch,
    written,
};
use std::{
    fs::{self, File},
    io::BufWriter,
};

/// What fills an output before a record is written to its front.
pub const FILL: u8 = 0x5a;

impl Driver {
    pub fn write(&mut self, fields: &mut Fields) -> Vec<u8> {
        let length = fields.u32() as usize;
        let (number, record) = match self.record_for(length) {
            Ok(record) => (number::DONE, record),
            Err(number) => (number, Vec::new()),
        };
        let mut answer = vec![number];
        answer.extend((record.len() as u32).to_le_bytes());
        put_output(&mut answer, length, &record);
        answer
    }

    /// 13.
    pub fn size(&mut self) -> Vec<u8> {
        let (number, length) = match self.record_due() {
            Ok(record) => (number::DONE, record.len() as u32),
            Err(number) => (number, 0),
        };
        [&[number], &length.to_le_bytes()[..]].concat()
    }

    /// 13, 10.
    fn record_for(&mut self, output_length: usize) -> Result<Vec<u8>, u8> {
        let record = self.record_due()?;
        if record.len() > output_length {
            return Err(number::OUTPUT_TOO_SHORT);
        }
        Ok(record)
    }

    /// What the port has to write of the list, or 13.
    pub fn record_due(&mut self) -> Result<Vec<u8>, u8> {
        if !self.list_keeps_the_rules() {
            return Err(number::RULE_BROKEN);
        }
        let record = self.written_record();
        Ok(written::in_order(&record, &self.directory).expect("a record of the Rust's"))
    }

    /// The list's record as the Rust writes it, in hash order.
    pub fn written_record(&mut self) -> Vec<u8> {
        let folder = Scratch::new().expect("a folder for the record");
        let path = folder.path().join("record");
        let mut file = BufWriter::new(File::create(&path).expect("a file for the record"));
        let length = self.list.flush_to_file(&mut file);
        let record = fs::read(&path).expect("the record");
        assert_eq!(record.len() as u64, length);
        record
    }

    /// Holds what the port has written of the same list against the Rust's record.
    pub fn compare_record(&mut self, port: &[u8]) -> Result<(), String> {
        written::compare_records(&self.written_record(), port, &self.directory)
    }

    /// Commands by which a reader takes a record of a list under the directory.
    pub fn walk_through(&self, record: &[u8]) -> Script {
        written::walk_through(record, &self.directory).expect("a whole record")
    }

    /// Commands by which a replay takes it.
    pub fn replay_of(&self, record: &[u8]) -> Script {
        written::replay_of(record, &self.directory)
    }
}

/// The record, and the checksum of an output of that length with the record at its front.
pub fn put_output(answer: &mut Vec<u8>, length: usize, record: &[u8]) {
    put_blob(answer, record);
    let mut output = vec![FILL; length];
    output[..record.len()].copy_from_slice(record);
    answer.extend(crc32fast::hash(&output).to_le_bytes());
}

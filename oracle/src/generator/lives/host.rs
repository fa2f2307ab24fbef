//! The host of a log: what it keeps, and does as it is told.

use crate::{
    names::Found,
    protocol::{number, Fields},
};
use std::collections::BTreeMap;

/// What END tells when its answer is 0.
pub struct Ended<'a> {
    goes_on: bool,
    file: u32,
    pub record: &'a [u8],
}

impl<'a> Ended<'a> {
    /// None if the record was refused.
    pub fn told_by(answer: &'a [u8]) -> Option<Ended<'a>> {
        let mut fields = Fields(answer);
        let (number, _, source) = (fields.u8(), fields.u32(), fields.u8());
        let ended = Ended { goes_on: source == 0, file: fields.u32(), record: fields.blob() };
        (number == number::DONE).then_some(ended)
    }
}

#[derive(Default)]
pub struct Host {
    files: BTreeMap<u32, Vec<u8>>,
    /// Where it stands in the file being read.
    pub position: u64,
    /// Every record that was ended.
    pub records: Vec<Vec<u8>>,
}

impl Host {
    /// Of every file so many bytes are told of when the log is opened: a command has no room for
    /// all of them, and the first 9 are enough.
    const TOLD: usize = 1_000;

    pub fn bytes_of(&self, file: Option<u32>) -> Vec<u8> {
        file.and_then(|number| self.files.get(&number)).cloned().unwrap_or_default()
    }

    /// An answer to END: the record goes to the end of its file.
    pub fn ended(&mut self, answer: &[u8]) {
        if let Some(Ended { goes_on, file, record }) = Ended::told_by(answer) {
            let bytes = self.files.entry(file).or_default();
            assert!(goes_on || bytes.is_empty(), "a file that is taken is empty");
            bytes.extend(record);
            self.records.push(record.to_vec());
        }
    }

    /// An answer to CLEAN.
    pub fn cleaned(&mut self, answer: &[u8]) {
        let mut fields = Fields(&answer[2..]);
        for number in fields.nums() {
            self.files.insert(number, Vec::new());
        }
        self.remove(&mut fields);
    }

    /// An answer to OPEN or KILL.
    pub fn removed(&mut self, answer: &[u8]) {
        self.remove(&mut Fields(&answer[1..]));
    }

    fn remove(&mut self, fields: &mut Fields) {
        for number in fields.nums() {
            self.files.remove(&number);
        }
    }

    /// The files as OPEN is told of them.
    pub fn found(&self) -> Vec<Found> {
        let found = |(number, bytes): (&u32, &Vec<u8>)| Found {
            name: format!("log{number}").into_bytes(),
            bytes: bytes[..bytes.len().min(Self::TOLD)].to_vec(),
        };
        self.files.iter().map(found).collect()
    }

    /// How long the record is that stands at a place of a file.
    pub fn length_at(&self, bytes: &[u8], start: usize) -> usize {
        let fits = |record: &&Vec<u8>| bytes[start..].starts_with(record);
        self.records.iter().find(fits).map_or(bytes.len() - start, Vec::len)
    }
}

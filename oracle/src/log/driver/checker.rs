//! CHECK_NEW, PIECE and CLOSE, document 02's request One: what a run over the joined bytes would report.
//! The pieces are joined here, and each time the Rust's reader goes over all of them.

use super::{
    log_file::LogFile,
    reading::{whole_record, Refused},
    Driver,
};
use crate::{
    directory::Directory,
    protocol::{number, Fields},
};
use std::io;

pub struct Checker {
    directory: Directory,
    first_id: u64,
    /// The pieces so far, joined.
    joined: LogFile,
    closed: bool,
}

/// What a run without an image reports.
struct Ran {
    refused: Refused,
    position: u64,
    count: u64,
}

impl Checker {
    pub fn new(directory: Directory, first_id: u64) -> io::Result<Checker> {
        Ok(Checker { directory, first_id, joined: LogFile::new()?, closed: false })
    }

    fn taken(&self) -> u64 {
        self.joined.bytes().len() as u64
    }

    /// "a call after the close ... gives 14"; 13 stands before it. The place beside them is "the bytes
    /// taken so far".
    fn refusal(&self) -> Option<Refused> {
        let number = match (self.directory.keeps_the_rules(), self.closed) {
            (false, _) => number::RULE_BROKEN,
            (true, true) => number::BEYOND_THE_END,
            (true, false) => return None,
        };
        Some(Refused { number, place: self.taken() })
    }

    fn take(&mut self, piece: &[u8]) {
        let joined = [self.joined.bytes(), piece].concat();
        self.joined.replace(&joined);
    }

    fn run(&mut self) -> Ran {
        let (mut position, mut count, mut expected) = (0, 0, self.first_id);
        let refused = loop {
            match whole_record(&mut self.joined, &self.directory, position, Some(expected)) {
                Ok(reader) => position += reader.read_bytes(),
                Err(refused) => break refused,
            }
            count += 1;
            match expected.checked_add(1) {
                Some(next) => expected = next,
                None => break Refused { number: number::USED_UP, place: position },
            }
        };
        Ran { refused, position, count }
    }
}

impl Driver {
    pub fn check_new(&mut self, fields: &mut Fields) -> Vec<u8> {
        let checker = Checker::new(self.directory.clone(), fields.u64());
        self.checker = checker.expect("a file for the pieces");
        self.checked(self.checker.refusal())
    }

    /// "Answers 1 and 2 can be given only at the close": until then the answer is open.
    pub fn piece(&mut self, fields: &mut Fields) -> Vec<u8> {
        let piece = fields.blob();
        if let Some(refused) = self.checker.refusal() {
            return self.checked(Some(refused));
        }
        self.checker.take(piece);
        let refused = self.checker.run().refused;
        let open = matches!(refused.number, number::END_OF_LOG | number::ENDS_INSIDE);
        self.checked((!open).then_some(refused))
    }

    pub fn close(&mut self) -> Vec<u8> {
        let ran = match self.checker.refusal() {
            Some(refused) => Ran { refused, position: self.checker.taken(), count: 0 },
            None => self.checker.run(),
        };
        self.checker.closed = true;
        let number = self.checked(Some(ran.refused));
        [&number[..], &ran.position.to_le_bytes(), &ran.count.to_le_bytes()].concat()
    }

    fn checked(&mut self, refused: Option<Refused>) -> Vec<u8> {
        self.fault_at = refused.map(|refused| refused.place);
        vec![refused.map_or(number::DONE, |refused| refused.number)]
    }
}

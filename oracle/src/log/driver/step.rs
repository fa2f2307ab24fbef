//! STEP_AT and STEP: an opening by `Log::read_next`, then `LogReader::next` and `LogReader::read`.

use super::{
    super::{LogReader, END_RECORD},
    reading::{begun_by, next_action, number_of, open_record, read_payload},
    Driver,
};
use crate::{
    error::Result,
    protocol::{number, Fields, Stepped},
};

pub struct Cursor {
    position: u64,
    /// The running checksum of the record that is begun; none between records.
    begun: Option<crc32fast::Hasher>,
}

impl Cursor {
    pub fn at(position: u64) -> Cursor {
        Cursor { position, begun: None }
    }
}

impl Driver {
    pub fn step_at(&mut self, fields: &mut Fields) -> Vec<u8> {
        self.cursor = Cursor::at(fields.u64());
        self.step(fields)
    }

    /// A refusal leaves the cursor as it was, whatever the Rust's reader has consumed by then.
    pub fn step(&mut self, fields: &mut Fields) -> Vec<u8> {
        let validate = fields.u8() != 0;
        match self.try_step(validate) {
            Ok((stepped, cursor)) => {
                self.log_file.read_up_to(cursor.position);
                self.cursor = cursor;
                self.fault_at = None;
                stepped.answer()
            }
            Err(number) => {
                self.refuse_the_step();
                vec![number]
            }
        }
    }

    /// The action at fault in a step is the one that the cursor stands at.
    pub fn refuse_the_step(&mut self) {
        self.fault_at = Some(self.cursor.position);
    }

    /// 13 and 14 come first and concern additions of document 01; all else is the Rust's word.
    fn try_step(&mut self, validate: bool) -> std::result::Result<(Stepped, Cursor), u8> {
        if !self.directory.keeps_the_rules() {
            return Err(number::RULE_BROKEN);
        }
        self.log_file.try_to_go_to(self.cursor.position)?;
        match &self.cursor.begun {
            None => {
                let reader = open_record(&self.log_file, validate)?;
                Ok(self.stepped(begun_by(&reader), reader))
            }
            Some(checksum) => self.go_on(validate, checksum.clone()).map_err(number_of),
        }
    }

    fn go_on(&self, validate: bool, checksum: crc32fast::Hasher) -> Result<(Stepped, Cursor)> {
        let mut reader = self.log_file.reader(validate, checksum);
        let mut stepped = next_action(&mut reader)?;
        let before = reader.read_bytes();
        read_payload(&mut reader, &stepped, &self.directory)?;
        if stepped.has_payload() {
            stepped.payload_start = self.cursor.position + before;
            stepped.payload_length = reader.read_bytes() - before;
        }
        Ok(self.stepped(stepped, reader))
    }

    /// Behind the end tag the cursor stands between records.
    fn stepped(&self, stepped: Stepped, reader: LogReader) -> (Stepped, Cursor) {
        let position = self.cursor.position + reader.read_bytes();
        let begun = (stepped.tag != END_RECORD).then_some(reader.crc32);
        (Stepped { cursor: position, ..stepped }, Cursor { position, begun })
    }
}

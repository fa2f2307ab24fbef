//! BEGIN, END and FORGE_NEXT_ID: `begin_record` and `end_record`, with document 01's tests before
//! them.

use super::{list::List, writing::put_output, Driver};
use crate::{
    protocol::{number, Fields},
    written,
};
use std::{fs, sync::atomic::Ordering::Relaxed};

/// A record as it was ended.
#[derive(Default)]
struct Ended {
    record: Vec<u8>,
    source: u8,
    file: u32,
}

/// Where the file comes from that a record goes into.
mod source {
    pub const GOES_ON: u8 = 0;
    pub const POOL: u8 = 1;
    pub const NEW: u8 = 2;
}

impl Driver {
    pub fn begin(&mut self) -> Vec<u8> {
        if self.state.next_id() == u64::MAX {
            return vec![number::USED_UP];
        }
        self.list = List::of(self.state.log.begin_record().drain());
        [&[number::DONE], &self.list.id().to_le_bytes()[..]].concat()
    }

    pub fn end(&mut self, fields: &mut Fields) -> Vec<u8> {
        let length = fields.u32() as usize;
        let (number, ended) = match self.test_end(length) {
            Ok(()) => (number::DONE, self.end_record()),
            Err(number) => (number, Ended::default()),
        };
        let mut answer = vec![number];
        answer.extend((ended.record.len() as u32).to_le_bytes());
        answer.push(ended.source);
        answer.extend(ended.file.to_le_bytes());
        put_output(&mut answer, length, &ended.record);
        answer
    }

    /// 13, 11, 9 for overlays, 9 for files, 12, 10.
    fn test_end(&mut self, output_length: usize) -> Result<(), u8> {
        let record = self.record_due()?;
        if !self.state.overlays_keep_the_rules() || !self.state.keeps_the_rules() {
            return Err(number::RULE_BROKEN);
        }
        if self.list.id().checked_add(1) != Some(self.state.next_id()) {
            return Err(number::STALE_LIST);
        }
        if !self.state.have_room_for(&self.list) {
            return Err(number::NO_ROOM);
        }
        self.state.test_append(record.len() as u64)?;
        if record.len() > output_length {
            return Err(number::OUTPUT_TOO_SHORT);
        }
        Ok(())
    }

    /// Lets the Rust end a copy of the list; the record is what it appends to its file.
    fn end_record(&mut self) -> Ended {
        let (appending, pool) = (self.state.appending(), self.state.pool());
        self.state.expect_entries_of(&self.list);
        let change = self.list.copy(&self.directory);
        let length = self.state.log.end_record(change).expect("the end of a record") as usize;
        let file = self.state.appending().expect("the file of the record");
        let bytes = fs::read(self.state.path_of(file)).expect("the file of the record");
        let appended = &bytes[bytes.len() - length..];
        let record = written::in_order(appended, &self.directory).expect("a record of the Rust's");
        let source = if appending.is_some() {
            source::GOES_ON
        } else if pool.contains(&file) {
            source::POOL
        } else {
            source::NEW
        };
        Ended { record, source, file }
    }

    pub fn forge_next_id(&mut self, fields: &mut Fields) -> Vec<u8> {
        self.state.log.next_record_id.store(fields.u64(), Relaxed);
        vec![number::DONE]
    }
}

/// What the Rust does by itself where the driver goes by document 01: docs/DIFFERENCES.md.
#[cfg(test)]
mod tests {
    use super::super::super::{LogChange, ValueTableId};
    use super::*;
    use crate::directory::Kind;
    use std::panic::{catch_unwind, AssertUnwindSafe};

    const NEXT_ID_IS_THE_LAST: &str = "20ffffffffffffffff";

    /// The Rust ends an empty record in these queues.
    fn end_in(queues: &str) -> Driver {
        let driver = Driver::after(&[queues, "11"]);
        driver.state.log.end_record(LogChange::new(1)).unwrap();
        driver
    }

    #[test]
    fn the_last_id_is_handed_out_and_then_0() {
        let driver = Driver::after(&[NEXT_ID_IS_THE_LAST]);
        assert_eq!(driver.state.log.begin_record().record_id(), u64::MAX);
        assert_eq!(driver.state.log.begin_record().record_id(), 0);
    }

    #[test]
    fn a_stale_list_stops_the_program() {
        let driver = Driver::after(&["11", "11"]);
        let ended =
            catch_unwind(AssertUnwindSafe(|| driver.state.log.end_record(LogChange::new(1))));
        assert!(ended.is_err());
    }

    #[test]
    fn the_overlays_have_room_for_more_than_256_keys() {
        let driver = Driver::after(&[]);
        let mut writer = driver.state.log.begin_record();
        let table = ValueTableId::from_u16(0).in_column(0);
        (0..257).for_each(|index| writer.insert_value(table, index, vec![1]));
        let change = writer.drain();
        driver.state.log.end_record(change).unwrap();
        assert_eq!(driver.state.overlays().read().value[0].map.len(), 257);
    }

    /// 64 in cleanup.
    #[test]
    fn there_is_always_one_more_file() {
        let numbers: String = (0..64).map(|number| format!("{number:02x}000000")).collect();
        let none_appending_or_reading = "00".repeat(5 + 8 + 5);
        let driver =
            end_in(&format!("1f{none_appending_or_reading}00004000{numbers}000000004000000000"));
        assert_eq!(driver.state.appending(), Some(64));
    }

    #[test]
    fn the_last_file_number_is_taken_and_then_0() {
        let driver = end_in("1f0000000000000000000000000000000000000000000000000000ffffffff00");
        assert_eq!(driver.state.appending(), Some(u32::MAX));
        assert_eq!(driver.state.log.next_log_id.load(Relaxed), 0);
    }

    #[test]
    fn a_file_grows_beyond_its_size() {
        let driver = end_in("1f0100000000ffffffffffffff7f000000000000000000000000000100000000");
        assert_eq!(driver.state.size(), (1 << 63) - 1 + 14);
    }

    /// Masks aren't joined, and an index entry sets no last id: as in document 01.
    #[test]
    fn an_entry_is_put_over_the_shared_one() {
        let chunk = "00".repeat(512);
        let insert = |slot: &str| format!("0600000000000000000000{slot}00020000{chunk}");
        let directory = "01010000000301000000";
        let end = "1200100000";
        let (first, second) = (insert("00"), insert("05"));
        let driver = Driver::after(&[directory, "11", &first, end, "11", &second, end]);
        let overlays = driver.state.overlays().read();
        let (id, mask, _) = overlays.index[0].map[&0];
        assert_eq!((id, mask), (2, 1 << 5));
        assert_eq!(overlays.last_record_ids, [0; 8]);
        assert!(driver.state.overlays_keep_the_rules());
        assert_eq!(driver.list.entries(Kind::Index).len(), 1);
    }
}

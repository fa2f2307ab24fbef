//! CLEAR: `end_read` with what the Rust's reader has gathered from a whole record that it accepts.

use super::{
    reading::{whole_record, Refused},
    Driver,
};
use crate::protocol::{number, Fields};

impl Driver {
    pub fn clear(&mut self, fields: &mut Fields) -> Vec<u8> {
        let position = fields.u64();
        let cleared = self.clear_record(position);
        self.fault_at = cleared.err().map(|refused| refused.place);
        let (number, position, id) = match cleared {
            Ok((behind, id)) => (number::DONE, behind, id),
            Err(refused) => (refused.number, position, 0),
        };
        [&[number], &position.to_le_bytes()[..], &id.to_le_bytes()].concat()
    }

    /// The position behind the record and its id, or the refusal: 13, 14, the faults in byte order,
    /// then 12.
    fn clear_record(&mut self, position: u64) -> Result<(u64, u64), Refused> {
        if !self.directory.keeps_the_rules() || !self.state.overlays_keep_the_rules() {
            return Err(Refused { number: number::RULE_BROKEN, place: position });
        }
        let reader = whole_record(&mut self.log_file, &self.directory, position, None)?;
        let (id, behind) = (reader.record_id(), position + reader.read_bytes());
        if id == u64::MAX {
            return Err(Refused { number: number::USED_UP, place: behind });
        }
        self.state.log.end_read(reader.drain(), id);
        Ok((behind, id))
    }
}

/// What the Rust does by itself where the driver goes by document 01: docs/DIFFERENCES.md.
#[cfg(test)]
mod tests {
    use super::super::{super::Cleared, reading::open_record};
    use super::*;
    use crate::protocol::{from_hex, op, with_blob};
    use std::panic::{catch_unwind, AssertUnwindSafe};

    /// The record of id 1 with a value of one byte at index 0 of table 0, and a wrong checksum.
    const WRONG_SUM: &str = "0101000000000000000300000000000000000000ff0400000000";

    /// A driver with that value in its overlay, and the log.
    fn with_value() -> Driver {
        let directory = "01010100000001000100";
        let forge = "22010000000000000000000001000000000000000000000000000000ff0100";
        let mut driver = Driver::after(&[directory, forge]);
        driver.answer(&with_blob(op::LOG, &from_hex(WRONG_SUM).unwrap()));
        driver
    }

    fn values(driver: &Driver) -> usize {
        driver.state.overlays().read().value[0].map.len()
    }

    /// Reads so many actions behind the begin, whatever comes, and clears what was read.
    fn clear_behind(validate: bool, actions: usize) -> Driver {
        let driver = with_value();
        let mut reader = open_record(&driver.log_file, validate).unwrap();
        for _ in 0..actions {
            let _ = reader.next();
            let _ = reader.read(&mut [0]);
        }
        let id = reader.record_id();
        driver.state.log.end_read(reader.drain(), id);
        driver
    }

    #[test]
    fn half_a_record_clears() {
        assert_eq!(values(&clear_behind(true, 0)), 1);
        assert_eq!(values(&clear_behind(true, 1)), 0);
    }

    #[test]
    fn a_wrong_checksum_clears() {
        assert_eq!(values(&clear_behind(false, 2)), 0);
        assert_eq!(values(&clear_behind(true, 2)), 0);
    }

    #[test]
    fn document_01_clears_neither() {
        let mut driver = with_value();
        let refused = driver.clear_record(0).unwrap_err();
        assert_eq!(refused.number, number::CHECKSUM_DIFFERS);
        assert_eq!(values(&driver), 1);
    }

    /// The next id is 0 then, or the program stops where overflow is tested.
    #[test]
    fn behind_the_last_id_comes_0() {
        let driver = Driver::after(&[]);
        let cleared = catch_unwind(AssertUnwindSafe(|| {
            driver.state.log.end_read(Cleared::default(), u64::MAX);
            driver.state.next_id()
        }));
        assert_eq!(cleared.ok(), (!cfg!(debug_assertions)).then_some(0));
    }
}

//! REPLAY and RUN: the Rust's reader goes over a record twice. The first time to its end, validating;
//! then it is reset, and what it reads again is applied to the image.

use super::{
    reading::{next_action, read_payload, whole_record, Refused},
    Driver,
};
use crate::protocol::{number, tag, Fields};

impl Driver {
    pub fn replay(&mut self, fields: &mut Fields) -> Vec<u8> {
        let (position, expected) = (fields.u64(), fields.u64());
        let replayed = self.replay_record(position, expected);
        self.fault_at = replayed.err().map(|refused| refused.place);
        let (number, position) = match replayed {
            Ok(behind) => (number::DONE, behind),
            Err(refused) => (refused.number, position),
        };
        [&[number], &position.to_le_bytes()[..]].concat()
    }

    pub fn run(&mut self, fields: &mut Fields) -> Vec<u8> {
        let (mut position, mut expected) = (fields.u64(), fields.u64());
        let mut count: u64 = 0;
        let refused = loop {
            match self.replay_record(position, expected) {
                Ok(behind) => position = behind,
                Err(refused) => break refused,
            }
            count += 1;
            match expected.checked_add(1) {
                Some(next) => expected = next,
                // Whatever stands behind the last id there is, the end of the log too.
                None => break Refused { number: number::USED_UP, place: position },
            }
        };
        self.fault_at = Some(refused.place);
        [&[refused.number], &position.to_le_bytes()[..], &count.to_le_bytes()].concat()
    }

    /// The position behind the record, or its refusal.
    fn replay_record(&mut self, position: u64, expected: u64) -> Result<u64, Refused> {
        if !self.directory.keeps_the_rules() || !self.image.fits(&self.directory) {
            return Err(Refused { number: number::RULE_BROKEN, place: position });
        }
        let mut reader =
            whole_record(&mut self.log_file, &self.directory, position, Some(expected))?;
        let length = reader.read_bytes();
        reader.reset().expect("a seek back to the record's begin");
        loop {
            let action = next_action(&mut reader).expect("an action that was read before");
            if action.tag == tag::END {
                return Ok(position + length);
            }
            let payload = read_payload(&mut reader, &action, &self.directory);
            self.image.apply(&action, &payload.expect("read before"), &self.directory);
        }
    }
}

/// What the Rust does by itself where the driver goes by document 01: docs/DIFFERENCES.md.
#[cfg(test)]
mod tests {
    use super::super::super::LogAction;
    use super::*;
    use crate::protocol::{from_hex, op, with_blob};

    /// What `next` gives from a log's front on, until it refuses or comes to an end tag.
    fn taken_by_the_rust(log: &str) -> Vec<LogAction> {
        let mut driver = Driver::new().unwrap();
        driver.answer(&with_blob(op::LOG, &from_hex(log).unwrap()));
        let mut reader = driver.log_file.read_next(true).unwrap().unwrap();
        let mut taken = Vec::new();
        while let Ok(action) = reader.next() {
            taken.push(action);
            if let Some(LogAction::EndRecord) = taken.last() {
                break;
            }
        }
        taken
    }

    #[test]
    fn any_id_is_taken() {
        assert!(matches!(
            taken_by_the_rust("0101000000000000000412d35e1c")[..],
            [LogAction::EndRecord]
        ));
    }

    #[test]
    fn an_action_is_handed_out_before_a_wrong_checksum_is_seen() {
        let taken = taken_by_the_rust("0101000000000000000500000400000000");
        assert!(matches!(taken[..], [LogAction::DropTable(_)]));
    }
}

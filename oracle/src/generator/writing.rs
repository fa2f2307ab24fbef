//! What comes behind the lists: their records written, and read again.

use super::{log_bytes::LogBytes, Generator};
use crate::{
    directory::Directory,
    protocol::{op, LONGEST_IMAGE},
    written::id_of,
};

impl Generator {
    /// The length of the record of the list that the script leaves, and the record into outputs of all
    /// sorts of lengths; then it is replayed.
    pub fn write_list(&mut self, directory: &Directory) {
        let record = self.record_of_list();
        let (exact, more) = (record.len(), self.random.between(1, 2_000));
        self.script.push(vec![op::SIZE]);
        for length in [exact, exact.saturating_sub(1), exact + more, 0] {
            self.write_into(length);
        }
        if !record.is_empty() && directory.image_length() <= LONGEST_IMAGE {
            self.replay_written(directory, record);
        }
    }

    pub fn write_into(&mut self, output_length: usize) {
        self.script.push([&[op::WRITE], &(output_length as u32).to_le_bytes()[..]].concat());
    }

    /// Told by the Rust's side, which takes the list's commands once more; empty if the list breaks
    /// a rule.
    fn record_of_list(&mut self) -> Vec<u8> {
        let last = |script: &[Vec<u8>], opcode| script.iter().rposition(|row| row[0] == opcode);
        let list = last(&self.script, op::NEWLIST).expect("a list is handed over");
        let directory = last(&self.script[..list], op::DIR).expect("a directory is handed over");
        let due = [&self.script[directory..=directory], &self.script[list..]].concat();
        due.iter().for_each(|command| drop(self.side().answer(command)));
        self.take_from_here();
        self.record_due()
    }

    /// The list's record at the front of a log, alone or with other bytes behind it.
    fn replay_written(&mut self, directory: &Directory, record: Vec<u8>) {
        let id = id_of(&record);
        let mut log = LogBytes { bytes: record, ..LogBytes::default() };
        match self.random.below(4) {
            0 => {}
            1 => {
                let noise = self.random.between(1, 20);
                log.bytes.extend(self.random.bytes(noise));
            }
            2 => self.record(&mut log, id, directory, 2),
            _ => self.record(&mut log, id.wrapping_add(1), directory, 2),
        }
        self.hand_log(&log.bytes);
        self.replay_on_image(directory, 0, id);
        self.run_on_image(directory, 0, id);
    }
}

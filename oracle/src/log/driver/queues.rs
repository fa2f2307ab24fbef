//! OPEN, FLUSH, READ_NEXT, REPLAY_NEXT, CLEAN, CLEAR_REPLAY, KILL, STATE and FORGE_QUEUES: the calls
//! of `Log` on real files. What they tell the host to empty or remove is seen in the folder.

use super::{super::IndexTableId, reading::number_of, state::State, Driver};
use crate::{
    names::Found,
    protocol::{number, put_nums, Fields, RUST_FAILS},
};
use std::{
    fs::{self, File},
    io::{Seek, SeekFrom},
};

impl Driver {
    pub fn open(&mut self, fields: &mut Fields) -> Vec<u8> {
        let found = Found::from_fields(fields);
        if let Err(number) = Found::test(&found) {
            return vec![number];
        }
        match State::opened_with(&found) {
            Ok((state, removed)) => {
                self.state = state;
                let mut answer = vec![number::DONE];
                put_nums(&mut answer, &removed);
                answer
            }
            Err(_) => vec![RUST_FAILS],
        }
    }

    pub fn flush(&mut self, fields: &mut Fields) -> Vec<u8> {
        let minimum = fields.u64();
        if !self.state.keeps_the_rules() {
            return vec![number::RULE_BROKEN, 0];
        }
        let moved = self.state.log.flush_one(minimum).expect("a flush");
        vec![number::DONE, moved.into()]
    }

    pub fn read_next(&mut self, fields: &mut Fields) -> Vec<u8> {
        let (position, validate) = (fields.u64(), fields.u8() != 0);
        match self.try_to_read_next(position, validate) {
            Ok((id, behind)) => {
                [&[number::DONE], &id.to_le_bytes()[..], &behind.to_le_bytes()].concat()
            }
            Err(number) => vec![number],
        }
    }

    /// The file to be read gets the bytes of LOG, and the Rust the host's position in it.
    fn try_to_read_next(
        &mut self,
        position: u64,
        validate: bool,
    ) -> std::result::Result<(u64, u64), u8> {
        if !self.state.keeps_the_rules() {
            return Err(number::RULE_BROKEN);
        }
        let bytes = self.log_file.bytes();
        let start = if self.state.reading().is_some() { position } else { 0 };
        if start > bytes.len() as u64 {
            return Err(number::BEYOND_THE_END);
        }
        if let Some(number) = self.state.reading().or(self.state.front_of_read_queue()) {
            fs::write(self.state.path_of(number), bytes).expect("writing a log's file");
        }
        if let Some(reading) = self.state.log.reading.write().as_mut() {
            reading.file.seek(SeekFrom::Start(start)).expect("a seek in a log's file");
        }
        match self.state.log.read_next(validate) {
            Ok(Some(reader)) => Ok((reader.record_id(), start + reader.read_bytes())),
            Ok(None) => Err(number::END_OF_LOG),
            Err(error) => Err(number_of(error)),
        }
    }

    /// Whether `read_next` would try the front of the read queue.
    pub fn front_is_due(&self) -> bool {
        self.state.keeps_the_rules()
            && self.state.reading().is_none()
            && self.state.front_of_read_queue().is_some()
    }

    /// Where document 01 has the front after a refused `read_next`.
    pub fn put_front_back(&mut self) {
        let reading = self.state.log.reading.write().take().expect("the front that was moved");
        let front = (reading.id, reading.file.into_inner());
        self.state.log.read_queue.write().push_front(front);
    }

    pub fn replay_next(&mut self) -> Vec<u8> {
        let (number, found) = match self.state.keeps_the_rules() {
            true => (number::DONE, self.state.log.replay_next().expect("the next file")),
            false => (number::RULE_BROKEN, None),
        };
        let file = found.unwrap_or(0).to_le_bytes();
        [&[number, found.is_some().into()], &file[..]].concat()
    }

    pub fn clean(&mut self, fields: &mut Fields) -> Vec<u8> {
        let most = fields.u64() as usize;
        let mut answer = vec![number::RULE_BROKEN, 0];
        let (mut emptied, mut removed) = (Vec::new(), Vec::new());
        if self.state.keeps_the_rules() {
            let files = self.filled(&self.state.cleanup());
            let before = self.state.numbers_there();
            let still = self.state.log.clean_logs(most).expect("a cleaning");
            answer = vec![number::DONE, still.into()];
            let is_empty = |file: &File| file.metadata().expect("a file's length").len() == 0;
            emptied = files.into_iter().filter(|(_, file)| is_empty(file)).collect();
            removed = before.difference(&self.state.numbers_there()).copied().collect();
        }
        let emptied: Vec<u32> = emptied.into_iter().map(|(number, _)| number).collect();
        put_nums(&mut answer, &emptied);
        put_nums(&mut answer, &removed);
        answer
    }

    /// Files that have a byte at least, so that it shows when they are emptied; held open, so that
    /// it shows of removed ones too.
    fn filled(&self, numbers: &[u32]) -> Vec<(u32, File)> {
        let filled = |number: &u32| {
            let path = self.state.path_of(*number);
            if fs::metadata(&path)?.len() == 0 {
                fs::write(&path, [0])?;
            }
            Ok((*number, File::open(path)?))
        };
        numbers.iter().map(filled).collect::<std::io::Result<_>>().expect("files in cleanup")
    }

    pub fn clear_replay(&mut self) -> Vec<u8> {
        if !self.state.keeps_the_rules() || !self.state.overlays_keep_the_rules() {
            return vec![number::RULE_BROKEN];
        }
        self.state.log.clear_replay_logs();
        vec![number::DONE]
    }

    pub fn kill(&mut self) -> Vec<u8> {
        let mut removed = Vec::new();
        let mut answer = vec![number::RULE_BROKEN];
        if self.state.keeps_the_rules() {
            let (before, reading) = (self.state.numbers_there(), self.state.reading());
            self.state.log.kill_logs().expect("the removal of files");
            answer = vec![number::DONE];
            removed = before.difference(&self.state.numbers_there()).copied().collect();
            removed.sort_by_key(|number| (Some(*number) == reading, *number));
        }
        put_nums(&mut answer, &removed);
        answer
    }

    pub fn forge_queues(&mut self, fields: &mut Fields) -> Vec<u8> {
        self.state.forge(fields);
        vec![number::DONE]
    }
}

/// What a generator needs to lead a log's life for ports that don't speak END yet: records are ended
/// here, and the state that they leave is handed over as a forged one.
impl Driver {
    /// Lets the Rust begin and end a record of so many drops. The command that makes the state it
    /// leaves, or none if document 01 has no file for the record.
    pub fn end_a_record(&mut self, drops: u16) -> Option<Vec<u8>> {
        self.state.test_append(0).ok()?;
        let mut writer = self.state.log.begin_record();
        (0..drops).for_each(|table| writer.drop_table(IndexTableId::from_u16(table)));
        let change = writer.drain();
        self.state.log.end_record(change).expect("the end of a record");
        Some(self.state.forging())
    }

    /// The size of the file being appended to; 0 if there is none.
    pub fn appended(&self) -> u64 {
        self.state.size()
    }

    /// The bytes of the file that `read_next` would read.
    pub fn bytes_to_read(&self) -> Vec<u8> {
        let number = self.state.reading().or(self.state.front_of_read_queue());
        let read = |number| fs::read(self.state.path_of(number)).expect("a log's file");
        number.map(read).unwrap_or_default()
    }

    /// All files of the folder, as OPEN is told of them.
    pub fn files(&self) -> Vec<Found> {
        let found = |number| Found {
            name: format!("log{number}").into_bytes(),
            bytes: fs::read(self.state.path_of(number)).expect("a log's file"),
        };
        self.state.numbers_there().into_iter().map(found).collect()
    }
}

/// What the Rust does by itself where the driver goes by document 01: docs/DIFFERENCES.md.
#[cfg(test)]
mod tests {
    use super::*;
    use crate::protocol::{from_hex, op, with_blob};

    /// A file of 9 bytes with that id.
    fn found(name: &str, id: u8) -> Found {
        Found { name: name.into(), bytes: vec![1, id, 0, 0, 0, 0, 0, 0, 0] }
    }

    fn replay_queue(state: &State) -> Vec<u32> {
        state.log.replay_queue.read().iter().map(|(number, _, _)| *number).collect()
    }

    #[test]
    fn a_name_with_a_zero_is_that_of_another_file() {
        assert!(State::opened_with(&[found("log07", 1)]).is_err());
        let (state, _) = State::opened_with(&[found("log07", 1), found("log7", 2)]).unwrap();
        assert_eq!(replay_queue(&state), [7, 7]);
    }

    #[test]
    fn ties_stand_as_the_folder_is_read() {
        let files: Vec<Found> = (0..9).map(|number| found(&format!("log{number}"), 5)).collect();
        let folder = crate::scratch::Scratch::new().unwrap();
        for file in &files {
            let name = String::from_utf8(file.name.clone()).unwrap();
            fs::write(folder.path().join(name), &file.bytes).unwrap();
        }
        let log = super::super::state::open(folder.path()).unwrap();
        let opened: Vec<u32> =
            log.replay_queue.read().iter().map(|(number, _, _)| *number).collect();
        let names = fs::read_dir(folder.path()).unwrap().map(|entry| entry.unwrap().file_name());
        let read: Vec<u32> =
            names.map(|name| name.to_str().unwrap()[3..].parse().unwrap()).collect();
        assert_eq!(opened, read);
    }

    /// The next number is 0 then, or the program stops where overflow is tested.
    #[test]
    fn the_last_number_of_all_is_kept() {
        let opened = std::panic::catch_unwind(|| {
            let (state, _) = State::opened_with(&[found("log4294967295", 1)]).unwrap();
            state.log.next_log_id.into_inner()
        });
        assert_eq!(opened.ok(), (!cfg!(debug_assertions)).then_some(0));
    }

    #[test]
    fn a_refused_opening_moves_the_front_and_the_next_call_goes_on_behind_it() {
        let mut driver = Driver::new().unwrap();
        // File 0 in the read queue, next number 1.
        let state = "1f0000000000000000000000000000000000000100000000000000000000000100000000";
        driver.answer(&from_hex(state).unwrap());
        let begin = [8, 1, 7, 0, 0, 0, 0, 0, 0, 0];
        driver.answer(&with_blob(op::LOG, &begin));
        assert_eq!(driver.answer(&from_hex("15000000000000000001").unwrap()), [3]);
        assert_eq!(driver.state.reading(), Some(0));
        let reader = driver.state.log.read_next(true).unwrap().unwrap();
        assert_eq!(reader.record_id(), 7);
    }

    #[test]
    fn there_is_room_for_more_than_64_files() {
        let files: Vec<Found> = (0..65).map(|number| found(&format!("log{number}"), 5)).collect();
        assert_eq!(replay_queue(&State::opened_with(&files).unwrap().0).len(), 65);
    }
}

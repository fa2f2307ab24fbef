//! Answers the run protocol out of log.rs: one state, and one function for each opcode.

mod checker;
mod clearing;
mod ending;
mod entries;
mod image;
mod list;
mod lists;
mod log_file;
mod overlays;
mod queues;
mod reading;
mod replay;
mod salvage;
mod state;
mod step;
mod writing;

use self::{
    checker::Checker, image::Image, list::List, log_file::LogFile, state::State, step::Cursor,
};
use crate::{
    directory::Directory,
    protocol::{number, op, Fields, NOT_DRIVEN},
};
use std::io;

pub struct Driver {
    directory: Directory,
    image: Image,
    log_file: LogFile,
    cursor: Cursor,
    list: List,
    state: State,
    /// Where the last reading is at fault, if it was refused.
    fault_at: Option<u64>,
    checker: Checker,
}

impl Driver {
    pub fn new() -> io::Result<Driver> {
        Ok(Driver {
            directory: Directory::default(),
            image: Image::default(),
            log_file: LogFile::new()?,
            cursor: Cursor::at(0),
            list: List::new(1),
            state: State::new()?,
            fault_at: None,
            checker: Checker::new(Directory::default(), 1)?,
        })
    }

    pub fn answer(&mut self, command: &[u8]) -> Vec<u8> {
        let mut fields = Fields(&command[1..]);
        match command[0] {
            op::DIR => self.dir(&mut fields),
            op::IMAGE => self.image(&mut fields),
            op::LOG => self.log(&mut fields),
            op::CRC => crc(&mut fields),
            op::NEWLIST => self.new_list(&mut fields),
            op::INS_INDEX => self.insert_index(&mut fields),
            op::INS_VALUE => self.insert_value(&mut fields),
            op::INS_REF => self.insert_ref_count(&mut fields),
            op::DROP => self.drop_table(&mut fields),
            op::DROP_REF => self.drop_ref_count_table(&mut fields),
            op::STEP_AT => self.step_at(&mut fields),
            op::STEP => self.step(&mut fields),
            op::REPLAY => self.replay(&mut fields),
            op::RUN => self.run(&mut fields),
            op::IMAGE_SUM => self.image_sum(),
            op::OPEN => self.open(&mut fields),
            op::BEGIN => self.begin(),
            op::END => self.end(&mut fields),
            op::CLEAR => self.clear(&mut fields),
            op::FLUSH => self.flush(&mut fields),
            op::READ_NEXT => self.read_next(&mut fields),
            op::REPLAY_NEXT => self.replay_next(),
            op::CLEAN => self.clean(&mut fields),
            op::CLEAR_REPLAY => self.clear_replay(),
            op::KILL => self.kill(),
            op::LOOKUP => self.lookup(&mut fields),
            op::VALUE_INTO => self.value_into(&mut fields),
            op::STATE => self.state.answer(),
            op::OVERLAYS => self.overlays(),
            op::LAST_ID => self.last_id(&mut fields),
            op::FORGE_QUEUES => self.forge_queues(&mut fields),
            op::FORGE_NEXT_ID => self.forge_next_id(&mut fields),
            op::FORGE_LIST => self.forge_list(&mut fields),
            op::FORGE_OVERLAY => self.forge_overlay(&mut fields),
            op::LIST_SUM => self.list.sum(),
            op::FORGE_DROP => self.forge_drop(&mut fields),
            op::WHERE => self.place_of_the_fault(),
            op::CHECK_NEW => self.check_new(&mut fields),
            op::PIECE => self.piece(&mut fields),
            op::CLOSE => self.close(),
            op::SALVAGE => self.salvage(&mut fields),
            op::WRITE => self.write(&mut fields),
            // The Rust has no directory, and so no form of one.
            op::LENT => vec![number::DONE],
            op::SIZE => self.size(),
            _ => vec![NOT_DRIVEN],
        }
    }

    fn dir(&mut self, fields: &mut Fields) -> Vec<u8> {
        self.directory = Directory::from_fields(fields);
        vec![number::DONE]
    }

    fn place_of_the_fault(&self) -> Vec<u8> {
        let place = self.fault_at.unwrap_or(0);
        [&[self.fault_at.is_some().into()], &place.to_le_bytes()[..]].concat()
    }

    fn log(&mut self, fields: &mut Fields) -> Vec<u8> {
        self.log_file.replace(fields.blob());
        vec![number::DONE]
    }
}

#[cfg(test)]
impl Driver {
    /// A driver that has taken these commands, none of which it refuses.
    fn after(lines: &[&str]) -> Driver {
        let mut driver = Driver::new().unwrap();
        for line in lines {
            let command = crate::protocol::from_hex(line).unwrap();
            assert_eq!(driver.answer(&command)[0], number::DONE, "{line}");
        }
        driver
    }
}

/// The checksum is that of the crate which log.rs calls.
fn crc(fields: &mut Fields) -> Vec<u8> {
    crc32fast::hash(fields.blob()).to_le_bytes().to_vec()
}

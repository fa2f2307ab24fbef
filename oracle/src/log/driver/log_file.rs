//! The bytes that LOG hands over, as a real file that log.rs is reading.

use super::{
    super::{Log, LogReader, Reading},
    state,
};
use crate::{error::Result, protocol::number, scratch::Scratch};
use std::{
    fs::{self, File},
    io::{self, BufReader, Seek, SeekFrom},
    path::PathBuf,
};

/// The number log.rs knows the file by; nothing here depends on it.
const NUMBER: u32 = 0;

pub struct LogFile {
    /// A `Log` that does nothing but read this file.
    log: Log,
    bytes: Vec<u8>,
    /// Where log.rs stands in the file, where that is known: saves a seek at every step.
    stands_at: Option<u64>,
    path: PathBuf,
    /// Holds the file; removed with it.
    _folder: Scratch,
}

impl LogFile {
    pub fn new() -> io::Result<LogFile> {
        let folder = Scratch::new()?;
        let log = state::open(folder.path()).expect("a Log over an empty folder");
        let path = folder.path().join("bytes");
        fs::write(&path, [])?;
        let file = LogFile { log, bytes: Vec::new(), stands_at: None, path, _folder: folder };
        file.read_from(File::open(&file.path)?);
        Ok(file)
    }

    pub fn bytes(&self) -> &[u8] {
        &self.bytes
    }

    pub fn replace(&mut self, bytes: &[u8]) {
        fs::write(&self.path, bytes).expect("writing the log's file");
        self.bytes = bytes.to_vec();
        self.stands_at = None;
    }

    /// The Rust knows no position beyond the end, so that 14 is told here.
    pub fn try_to_go_to(&mut self, position: u64) -> std::result::Result<(), u8> {
        if position > self.bytes.len() as u64 {
            return Err(number::BEYOND_THE_END);
        }
        self.go_to(position);
        Ok(())
    }

    /// Puts log.rs at a position. Where it stands afterwards is known again only if told by
    /// `read_up_to`.
    fn go_to(&mut self, position: u64) {
        if self.stands_at.take() != Some(position) {
            let mut reading = self.log.reading.write();
            let file = &mut reading.as_mut().expect("the file being read").file;
            file.seek(SeekFrom::Start(position)).expect("a seek in the log's file");
        }
    }

    pub fn read_up_to(&mut self, position: u64) {
        self.stands_at = Some(position);
    }

    /// `Log::read_next` itself, but for its effect on the queues: at the end of the log it sends
    /// the file to cleanup, from where it is taken back.
    pub fn read_next(&self, validate: bool) -> Result<Option<LogReader<'_>>> {
        let opened = self.log.read_next(validate);
        if let Ok(None) = opened {
            let (_, file) = self.log.cleanup_queue.write().pop_back().expect("the file just read");
            self.read_from(file);
        }
        opened
    }

    /// A reader in the midst of a record, with the checksum of what was read so far.
    pub fn reader(&self, validate: bool, checksum: crc32fast::Hasher) -> LogReader<'_> {
        let mut reader = LogReader::new(self.log.reading.write(), validate);
        reader.crc32 = checksum;
        reader
    }

    fn read_from(&self, file: File) {
        *self.log.reading.write() = Some(Reading { id: NUMBER, file: BufReader::new(file) });
    }
}

/// What the Rust does by itself where the driver goes by document 01: docs/DIFFERENCES.md.
#[cfg(test)]
mod tests {
    use super::*;
    use crate::log::LogAction;

    const BEGIN: [u8; 9] = [1, 7, 0, 0, 0, 0, 0, 0, 0];

    fn holding(bytes: &[u8]) -> LogFile {
        let mut file = LogFile::new().unwrap();
        file.replace(bytes);
        file
    }

    #[test]
    fn beyond_the_end_the_file_is_sent_to_cleanup() {
        let mut file = holding(&[]);
        file.go_to(1);
        assert!(file.log.read_next(true).unwrap().is_none());
        assert!(file.log.reading.read().is_none());
        assert_eq!(file.log.num_dirty_logs(), 1);
    }

    #[test]
    fn behind_an_unknown_tag_the_next_call_goes_on() {
        let file = holding(&[&[8], &BEGIN[..]].concat());
        assert!(file.log.read_next(true).is_err());
        assert_eq!(file.log.read_next(true).unwrap().unwrap().record_id(), 7);
    }

    #[test]
    fn behind_a_wrong_checksum_the_end_tag_is_gone() {
        let file = holding(&[&BEGIN[..], &[4, 0, 0, 0, 0], &[5, 2, 0]].concat());
        let mut reader = file.log.read_next(true).unwrap().unwrap();
        assert!(reader.next().is_err());
        assert!(matches!(reader.next(), Ok(LogAction::DropTable(_))));
    }
}

//! What the commands read.

use crate::failure::{Failure, INPUT, TOO_LONG};
use hongsathep::{Directory, Found, LogFile, Queues};
use indicatif::{ProgressBar, ProgressStyle};
use std::{
    fs::{self, File},
    io::{self, Read, Seek, SeekFrom},
    path::Path,
};

/// The longest text of a directory, as in the program `recover`.
const LONGEST_TEXT: u64 = 65536;

/// The directory that a text describes. What isn't UTF-8 in it can stand in a comment alone, and is passed over there.
pub fn directory(path: &Path) -> Result<Directory, Failure> {
    let mut text = Vec::new();
    let read = File::open(path).and_then(|file| file.take(LONGEST_TEXT + 1).read_to_end(&mut text));
    read.map_err(|error| Failure::of(INPUT, path, error))?;
    if text.len() as u64 > LONGEST_TEXT {
        return Err(Failure::of(TOO_LONG, path, format!("more than {LONGEST_TEXT} bytes")));
    }
    let parsed = String::from_utf8_lossy(&text).parse();
    parsed.map_err(|error: hongsathep::Error| {
        let fault = error.directory_fault().map_or(error.to_string(), |fault| fault.to_string());
        let line = error.line().map_or(String::new(), |line| format!("line {line}: "));
        Failure::of(13, path, format!("{line}{fault} (answer 13)"))
    })
}

/// All bytes of a log, which must be a file: a device may never end.
pub fn log(path: &Path) -> Result<Vec<u8>, Failure> {
    LogFile::at(path, 0).map_err(|error| Failure::refused(INPUT, &error))?;
    fs::read(path).map_err(|error| Failure::of(INPUT, path, error))
}

/// The id that `open` finds at the front of these bytes; none if they are too few for a record's opening.
pub fn first_id(head: &[u8]) -> Option<u64> {
    let file = Found { name: b"log0", length: head.len() as u64, head };
    Queues::open(&[file]).ok()?.0.replay_record_id()
}

/// The id of the record at a position of a file, if one is opened there.
pub fn id_at(mut file: &File, position: u64) -> io::Result<Option<u64>> {
    let mut head = Vec::new();
    file.seek(SeekFrom::Start(position))?;
    file.take(9).read_to_end(&mut head)?;
    Ok(first_id(&head))
}

/// Shows how far reading is, on standard error if that is a terminal, else nowhere.
pub fn progress(length: Option<u64>) -> ProgressBar {
    let (bar, template) = match length {
        Some(length) => (ProgressBar::new(length), "{wide_bar} {bytes} of {total_bytes}, {bytes_per_sec}"),
        None => (ProgressBar::new_spinner(), "{spinner} {bytes}, {bytes_per_sec}"),
    };
    match ProgressStyle::with_template(template) {
        Ok(style) => bar.with_style(style),
        Err(_) => bar,
    }
}

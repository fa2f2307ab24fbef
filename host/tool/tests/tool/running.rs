//! The tool run in a folder.

use crate::sample::{directory, record, Scratch};
use hongsathep::{checksum, Image};
use std::{
    collections::BTreeMap,
    fs,
    io::Write,
    path::Path,
    process::{Command, Output, Stdio},
    thread::sleep,
    time::Duration,
};

pub const TOOL: &str = env!("CARGO_BIN_EXE_hongsathep");

/// What a run said, and its exit status.
#[derive(Debug, PartialEq, Eq)]
pub struct Said {
    pub status: Option<i32>,
    pub out: String,
    pub err: String,
}

impl Said {
    pub fn of(output: Output) -> Said {
        let text = |bytes| String::from_utf8(bytes).expect("words");
        Said { status: output.status.code(), out: text(output.stdout), err: text(output.stderr) }
    }

    /// The status, and that standard error says so.
    pub fn fails_with(&self, status: i32, words: &str) {
        assert_eq!(self.status, Some(status), "{self:?}");
        assert!(self.err.starts_with("hongsathep: ") && self.err.contains(words), "{words}: {self:?}");
    }
}

pub fn command(folder: &Path, arguments: &[&str]) -> Command {
    let mut command = Command::new(TOOL);
    command.current_dir(folder).args(arguments).stdin(Stdio::null());
    command
}

pub fn run(folder: &Path, arguments: &[&str]) -> Said {
    Said::of(command(folder, arguments).output().unwrap())
}

/// A run that is handed bytes on standard input.
pub fn run_on(folder: &Path, arguments: &[&str], input: &[u8]) -> Said {
    let mut child =
        command(folder, arguments).stdin(Stdio::piped()).stdout(Stdio::piped()).stderr(Stdio::piped()).spawn().unwrap();
    // A run that needs no more of it closes it.
    let _ = child.stdin.take().unwrap().write_all(input);
    Said::of(child.wait_with_output().unwrap())
}

/// A run behind a lock that this process let go. Children of other tests have a copy of it between fork and exec.
pub fn once_free(run: impl Fn() -> Said) -> Said {
    for _ in 0..100 {
        let said = run();
        if said.status != Some(75) {
            return said;
        }
        sleep(Duration::from_millis(20));
    }
    run()
}

/// Records of these ids, one behind the other.
pub fn log(ids: impl IntoIterator<Item = u64>) -> Vec<u8> {
    ids.into_iter().flat_map(|id| record(&directory(), id)).collect()
}

/// A record of 53,115 bytes: all slots of index chunk 2 of table 3, a hundred times.
pub fn long_record(id: u64) -> Vec<u8> {
    chunks(id, 2, 512, 100)
}

/// A record that sets all slots of chunk 2 of table 3, of a kind and a length, so many times.
pub fn chunks(id: u64, tag: u8, length: usize, times: usize) -> Vec<u8> {
    let chunk = [&[tag, 3, 0, 2, 0, 0, 0, 0, 0, 0, 0][..], &[0xff; 8], &vec![id as u8; length]].concat();
    let mut record = [&[1][..], &id.to_le_bytes(), &chunk.repeat(times), &[4]].concat();
    record.extend(checksum(&record).to_le_bytes());
    record
}

/// A folder with the text of the sample's directory.
pub fn folder() -> Scratch {
    let scratch = Scratch::new();
    fs::write(scratch.path().join("directory"), directory().to_string()).unwrap();
    scratch
}

/// An image that isn't empty at the start.
pub fn old_image() -> Vec<u8> {
    vec![0x5a; directory().image_length()]
}

/// The old image behind the whole records of a log, the first of this id.
pub fn behind(log: &[u8], first: u64) -> Vec<u8> {
    let mut image = Image::from_bytes(&directory(), old_image()).unwrap();
    image.run(log, 0, first);
    image.into_bytes()
}

/// All names of a folder with their files' bytes; folders have none.
pub fn files(folder: &Path) -> BTreeMap<String, Vec<u8>> {
    let entries = fs::read_dir(folder).unwrap().map(Result::unwrap);
    entries
        .map(|entry| (entry.file_name().into_string().unwrap(), fs::read(entry.path()).unwrap_or_default()))
        .collect()
}

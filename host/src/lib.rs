//! The write-ahead log of parity-db, each call proved to meet its contract, for hosts in Rust.
//!
//! The calls themselves are written and proved in Rattle (the repository's crates/); this crate lends them memory and
//! makes the file calls. What is proved, and what isn't: a call's answer and what it leaves in memory are determined by
//! its contract, for any bytes at all. This crate, which hands states from one call to the next and moves bytes between
//! memory and files, is plain Rust, tested.
//!
//! - [`Directory`] says which tables there are; [`Image`] is the tables' bytes. [`Image::replay`] and [`Image::run`]
//!   replay records: a record is checked to its end before a byte of the tables is written.
//! - [`LogReader`] and [`Records`] go through a log's bytes.
//! - [`salvage`] finds what is whole of a damaged log, and lists what is lost.
//! - [`ChangeList`] gathers what a record is to change; [`Overlays`] answer for what the tables don't have yet;
//!   [`Queues`] are the numbers of the files.
//! - [`Log`] is all of these and real files: recover, append, sync, apply, clean. [`LogFile`], [`FolderLock`],
//!   [`Window`] and [`Replacement`] are what it does to files, for other programs.
//! - [`Error`] has document 01's number, words, and the place.
//! - [`raw`] has every call over the host's own memory.
//!
//! No function here panics, whatever it is handed.
#![deny(missing_debug_implementations, missing_docs, unsafe_code)]

mod answer;
mod directory;
mod error;
mod files;
mod image;
mod list;
mod log;
mod overlays;
mod queues;
mod reader;
mod salvage;
#[allow(unsafe_code)]
mod sys;
mod window;

pub use self::{
    answer::Answer,
    directory::{
        Directory, DirectoryBuilder, DirectoryFault, IndexTableId, Kind, RefCountTableId, Table, ValueTableId,
    },
    error::Error,
    files::{FolderLock, LogFile, Replacement},
    image::{Image, Ran},
    list::{ChangeList, LONGEST_RECORD},
    log::{Log, Opened, Recovered},
    overlays::{Ended, FileSource, Overlays, WithList},
    queues::{Cleaned, Found, Opening, Queues},
    reader::{Action, Entries, LogReader, Record, Records},
    salvage::{salvage, salvage_into, Line, Salvaged},
    sys::raw,
    window::{Window, LONGEST_TAKEN},
};

/// CRC-32 of ITU-T V.42: the checksum at a record's end.
///
/// ```
/// assert_eq!(hongsathep::checksum(b"123456789"), 0xcbf43926);
/// ```
pub fn checksum(bytes: &[u8]) -> u32 {
    raw::hongsathep_checksum(bytes)
}

/// The ten lines of README.md are run as a test.
#[cfg(doctest)]
#[doc = include_str!("../../README.md")]
pub struct Readme;

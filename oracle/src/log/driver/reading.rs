//! What STEP, REPLAY and CLEAR have in common: an opening, an action and its payload, and their numbers.

use super::{
    super::{
        LogAction, LogReader, BEGIN_RECORD, DROP_REF_COUNT_TABLE, DROP_TABLE, END_RECORD,
        ENTRY_BYTES, INSERT_INDEX, INSERT_REF_COUNT, INSERT_VALUE, REF_COUNT_ENTRY_BYTES,
    },
    log_file::LogFile,
};
use crate::{
    directory::{Directory, Kind},
    error::{Error, Result},
    listed::Listed,
    protocol::{number, Stepped},
};
use std::io::ErrorKind;

/// What a reading is refused with: document 01's number, and the place that request Five of document
/// 02 wants told: "the byte position of the first byte of the action at fault".
#[derive(Debug, Clone, Copy, PartialEq, Eq)]
pub struct Refused {
    pub number: u8,
    pub place: u64,
}

impl Refused {
    pub fn at(place: u64) -> impl Fn(u8) -> Refused {
        move |number| Refused { number, place }
    }
}

pub fn open_record(file: &LogFile, validate: bool) -> std::result::Result<LogReader<'_>, u8> {
    match file.read_next(validate) {
        Ok(Some(reader)) => Ok(reader),
        Ok(None) => Err(number::END_OF_LOG),
        Err(error) => Err(number_of(error)),
    }
}

/// A reader that has gone over a whole record, validating, up to its end: 14, the opening, 5 if an id
/// is expected, the faults in byte order.
pub fn whole_record<'a>(
    file: &'a mut LogFile,
    directory: &Directory,
    position: u64,
    expected: Option<u64>,
) -> std::result::Result<LogReader<'a>, Refused> {
    let refused = Refused::at(position);
    file.try_to_go_to(position).map_err(&refused)?;
    let file = &*file;
    let mut reader = open_record(file, true).map_err(&refused)?;
    if expected.is_some_and(|expected| reader.record_id() != expected) {
        return Err(refused(number::OTHER_ID));
    }
    check(&mut reader, file.bytes(), position, directory)?;
    Ok(reader)
}

/// The next action, told by tag, table, index and id.
pub fn next_action(reader: &mut LogReader) -> Result<Stepped> {
    Ok(match reader.next()? {
        LogAction::BeginRecord => begun_by(reader),
        LogAction::InsertIndex(key) => keyed(INSERT_INDEX, key.table.as_u16(), key.index),
        LogAction::InsertValue(key) => keyed(INSERT_VALUE, key.table.as_u16(), key.index),
        LogAction::InsertRefCount(key) => keyed(INSERT_REF_COUNT, key.table.as_u16(), key.index),
        LogAction::DropTable(table) => keyed(DROP_TABLE, table.as_u16(), 0),
        LogAction::DropRefCountTable(table) => keyed(DROP_REF_COUNT_TABLE, table.as_u16(), 0),
        LogAction::EndRecord => Stepped { tag: END_RECORD, ..Stepped::default() },
    })
}

pub fn begun_by(reader: &LogReader) -> Stepped {
    Stepped { tag: BEGIN_RECORD, id: reader.record_id(), ..Stepped::default() }
}

fn keyed(tag: u8, table: u16, index: u64) -> Stepped {
    Stepped { tag, table, index, ..Stepped::default() }
}

/// `next` leaves the payload to its caller: read here as document 01 has it, "Record bytes".
/// Empty for an action that has none.
pub fn read_payload(
    reader: &mut LogReader,
    of: &Stepped,
    directory: &Directory,
) -> Result<Vec<u8>> {
    match of.tag {
        INSERT_INDEX => read_entries(reader, ENTRY_BYTES),
        INSERT_REF_COUNT => read_entries(reader, REF_COUNT_ENTRY_BYTES),
        INSERT_VALUE => {
            // The Rust doesn't know whether there is such a table: then no length is known.
            let length = directory.find(Kind::Value, of.table).map_or(0, |table| table.length);
            let mut value = vec![0; length as usize];
            reader.read(&mut value)?;
            Ok(value)
        }
        _ => Ok(Vec::new()),
    }
}

/// The mask, then an entry for each of its bits.
fn read_entries(reader: &mut LogReader, entry_bytes: usize) -> Result<Vec<u8>> {
    let mut mask = [0; 8];
    reader.read(&mut mask)?;
    let mut payload = mask.to_vec();
    for _ in 0..u64::from_le_bytes(mask).count_ones() {
        let mut entry = vec![0; entry_bytes];
        reader.read(&mut entry)?;
        payload.extend(entry);
    }
    Ok(payload)
}

/// Reads a record that starts at a position of the log up to its end. What the Rust doesn't test is
/// told from the bytes before its reader takes them: so 4, 6 and 7 come where document 01 has them.
/// The place of a refusal is where the action starts that the reader is at, which is the log's end
/// where none is begun.
fn check(
    reader: &mut LogReader,
    log: &[u8],
    start: u64,
    directory: &Directory,
) -> std::result::Result<(), Refused> {
    loop {
        let place = start + reader.read_bytes();
        let refused = Refused::at(place);
        if let Some((_, number)) = Listed::inside(directory, &log[place as usize..]) {
            return Err(refused(number));
        }
        let action = next_action(reader).map_err(|error| refused(number_of(error)))?;
        if action.tag == END_RECORD {
            return Ok(());
        }
        read_payload(reader, &action, directory).map_err(|error| refused(number_of(error)))?;
    }
}

pub fn number_of(error: Error) -> u8 {
    match error {
        Error::Io(error) if error.kind() == ErrorKind::UnexpectedEof => number::ENDS_INSIDE,
        Error::Io(error) => panic!("reading the log's file: {error}"),
        Error::Corruption(text) => match text.as_str() {
            "Bad log entry type" => number::UNKNOWN_TAG,
            "Bad log record structure" => number::BEGIN_MISPLACED,
            "Log record CRC-32 mismatch" => number::CHECKSUM_DIFFERS,
            _ => panic!("log.rs has no such text: {text}"),
        },
    }
}

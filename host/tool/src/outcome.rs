//! How a log ended, in words.

use crate::failure::status_of;
use hongsathep::{Answer, Ran};
use std::fmt::Write;

/// A run over a log: where it stopped, and the id that its first record had to have.
pub struct Outcome {
    pub name: String,
    pub ran: Ran,
    pub first: u64,
    /// The log's length, where it is known.
    pub length: Option<u64>,
    /// The id that stands where another one was expected.
    pub found: Option<u64>,
}

impl Outcome {
    pub fn is_clean(&self) -> bool {
        self.ran.answer == Answer::EndOfLog
    }

    pub fn status(&self) -> u8 {
        status_of(self.ran.answer.number())
    }

    /// What was read.
    pub fn line(&self) -> String {
        let Ran { position, count, .. } = self.ran;
        let last = self.first.wrapping_add(count).wrapping_sub(1);
        let mut line = match count {
            0 => format!("{}: no records", self.name),
            1 => format!("{}: 1 record, id {last}", self.name),
            _ => format!("{}: {count} records, ids {} to {last}", self.name, self.first),
        };
        // Writing to a string can't fail.
        let _ = match (self.is_clean(), self.length) {
            (false, _) => write!(line, ", up to byte {position}"),
            (true, Some(length)) if length > position => {
                write!(
                    line,
                    "; ends cleanly at byte {position}; the {} behind it are no record",
                    bytes(length - position)
                )
            }
            (true, _) => write!(line, "; ends cleanly at byte {position}"),
        };
        line
    }

    /// Why it stopped there; none where the log ended.
    pub fn fault(&self) -> Option<String> {
        let Ran { answer, position, count, fault, .. } = self.ran;
        if self.is_clean() {
            return None;
        }
        let mut words = match answer {
            Answer::UsedUp => {
                format!("{}: {answer}: behind the last id no record may stand, at byte {position}", self.name)
            }
            _ => format!("{}: {answer}: the record at byte {position} isn't taken", self.name),
        };
        if fault != position {
            words.push_str(&format!(", the fault is at byte {fault}"));
        }
        if answer == Answer::WrongId {
            words.push_str(&format!(", id {} is expected", self.first.wrapping_add(count)));
            if let Some(found) = self.found {
                words.push_str(&format!(" and {found} stands there"));
            }
        }
        Some(words)
    }
}

/// So many bytes, in words.
pub fn bytes(count: u64) -> String {
    counted(count, "byte")
}

pub fn counted(count: u64, what: &str) -> String {
    match count {
        1 => format!("1 {what}"),
        _ => format!("{count} {what}s"),
    }
}

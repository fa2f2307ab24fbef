//! The files that OPEN is told of, and which of their names are taken: 01, "File numbers".

use crate::protocol::{number, op, Fields};

#[derive(Debug, Clone)]
pub struct Found {
    pub name: Vec<u8>,
    /// The whole file.
    pub bytes: Vec<u8>,
}

/// A file below that length is removed.
const LEAST_LENGTH: usize = 9;

/// "At most 64 files".
pub const MOST_FILES: usize = 64;

impl Found {
    pub fn from_fields(fields: &mut Fields) -> Vec<Found> {
        let count = fields.u16();
        let one = |_| {
            let length = fields.u8();
            let name = (0..length).map(|_| fields.u8()).collect();
            Found { name, bytes: fields.blob().to_vec() }
        };
        (0..count).map(one).collect()
    }

    /// The command that tells of these files.
    pub fn command(found: &[Found]) -> Vec<u8> {
        let mut command = vec![op::OPEN];
        command.extend((found.len() as u16).to_le_bytes());
        for file in found {
            command.push(file.name.len() as u8);
            command.extend(&file.name);
            command.extend((file.bytes.len() as u32).to_le_bytes());
            command.extend(&file.bytes);
        }
        command
    }

    pub fn taken(&self) -> Option<u32> {
        taken(&self.name)
    }

    pub fn taken_by_the_rust(&self) -> Option<u32> {
        taken_by_the_rust(&self.name)
    }

    fn is_kept(&self) -> bool {
        self.bytes.len() >= LEAST_LENGTH
    }

    /// "The same taken name twice gives 13, then more than 64 kept files 9, then a kept 2^32-1
    /// gives 12."
    pub fn test(found: &[Found]) -> Result<(), u8> {
        let mut taken: Vec<u32> = found.iter().filter_map(Found::taken).collect();
        let all = taken.len();
        taken.sort();
        taken.dedup();
        let kept = found.iter().filter(|file| file.is_kept()).filter_map(Found::taken);
        let kept: Vec<u32> = kept.collect();
        if taken.len() < all {
            Err(number::RULE_BROKEN)
        } else if kept.len() > MOST_FILES {
            Err(number::NO_ROOM)
        } else if kept.contains(&u32::MAX) {
            Err(number::USED_UP)
        } else {
            Ok(())
        }
    }
}

/// "log" plus a decimal number below 2^32 without plus sign or leading zero.
pub fn taken(name: &[u8]) -> Option<u32> {
    let digits = name.strip_prefix(b"log")?;
    let plain = digits == b"0" || digits.first().is_some_and(|digit| (b'1'..=b'9').contains(digit));
    taken_by_the_rust(name).filter(|_| plain)
}

/// As log.rs has it: what `u32::from_str` takes.
fn taken_by_the_rust(name: &[u8]) -> Option<u32> {
    std::str::from_utf8(name).ok()?.strip_prefix("log")?.parse().ok()
}

#[cfg(test)]
mod tests {
    use super::*;

    #[test]
    fn names_that_are_taken() {
        let plain: [(&[u8], u32); 4] =
            [(b"log0", 0), (b"log7", 7), (b"log10", 10), (b"log4294967295", u32::MAX)];
        for (name, number) in plain {
            assert_eq!((taken(name), taken_by_the_rust(name)), (Some(number), Some(number)));
        }
        let only_by_the_rust: [(&[u8], u32); 5] =
            [(b"log07", 7), (b"log00", 0), (b"log+7", 7), (b"log+0", 0), (b"log+07", 7)];
        for (name, number) in only_by_the_rust {
            assert_eq!((taken(name), taken_by_the_rust(name)), (None, Some(number)));
        }
        let others: [&[u8]; 9] = [
            b"",
            b"log",
            b"log-1",
            b"log 7",
            b"log1x",
            b"LOG1",
            b"log\xd9\xa7",
            b"log\xff",
            b"log4294967296",
        ];
        for name in others {
            assert_eq!((taken(name), taken_by_the_rust(name)), (None, None));
        }
    }
}

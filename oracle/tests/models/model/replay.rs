//! 01, "The opening of a record" and "Replay".

use super::{checksum, directory, directory::Table, number, Fault, Model};
use std::ops::Range;

/// What is read of a record, up to its end or to what refuses it.
#[derive(Default)]
pub struct Record {
    pub id: u64,
    /// Where it ends.
    pub behind: u64,
    /// What it does to the image: so many bytes from a place on become these.
    writes: Vec<(u64, Vec<u8>)>,
    /// The keys that it names: kind, table, index, and whether its mask is 0.
    pub keys: Vec<(usize, u64, u64, bool)>,
    /// Kind and table.
    pub drops: Vec<(usize, u64)>,
    /// Where it is at fault, if it is refused.
    pub fault_at: u64,
}

impl Model {
    pub fn replay(&mut self, position: u64, expected: u64) -> Vec<u8> {
        let (answer, behind, fault_at) = self.replay_record(position, expected);
        self.tell_fault(answer, fault_at);
        [&[answer], &behind.to_le_bytes()[..]].concat()
    }

    pub fn run(&mut self, mut position: u64, mut expected: u64) -> Vec<u8> {
        let mut count: u64 = 0;
        let (answer, fault_at) = loop {
            let before =
                (count > 0 && self.has(Fault::CountsWithoutApplying)).then(|| self.image.clone());
            let (answer, behind, fault_at) = self.replay_record(position, expected);
            if let Some(before) = before {
                self.image = before;
            }
            let start = position;
            position = behind;
            if answer != 0 {
                break (answer, fault_at);
            }
            count += 1;
            if expected == u64::MAX && !self.has(Fault::EndOfLogBehindTheLastId) {
                let at_start = self.has(Fault::StartOfTheLastRecord);
                break (12, if at_start { start } else { position });
            }
            expected = expected.wrapping_add(1);
        };
        self.tell_fault(answer, fault_at);
        count += u64::from(self.has(Fault::CountsTheRefused) && answer == 8);
        [&[answer], &position.to_le_bytes()[..], &count.to_le_bytes()].concat()
    }

    /// 02, "Five": the place stands beside an answer other than 0.
    pub fn tell_fault(&mut self, answer: u8, place: u64) {
        if answer != 0 || !self.has(Fault::PlaceOfTheRefusalBefore) {
            self.fault_at = (answer != 0).then_some(place);
        }
    }

    fn replay_record(&mut self, position: u64, expected: u64) -> (u8, u64, u64) {
        let mut record = Record::default();
        let read = self.read_for_replay(position, expected, &mut record);
        let fault_at = record.fault_at;
        if read.is_ok() || self.has(Fault::AppliesBeforeTheEnd) {
            if self.has(Fault::FirstKeyWins) {
                record.writes.reverse();
            }
            for (place, bytes) in record.writes {
                let place = place as usize;
                self.image[place..place + bytes.len()].copy_from_slice(&bytes);
            }
        }
        match read {
            Ok(()) if self.has(Fault::RecordLengthOf16Bits) => {
                (0, position + u64::from((record.behind - position) as u16), fault_at)
            }
            Ok(()) => (0, record.behind, fault_at),
            Err(answer) => {
                if self.has(Fault::WritesOnRefusal) && answer == 8 {
                    self.image.iter_mut().take(1).for_each(|byte| *byte ^= 1);
                }
                (answer, position, fault_at)
            }
        }
    }

    fn read_for_replay(&self, position: u64, expected: u64, record: &mut Record) -> Result<(), u8> {
        record.fault_at = position;
        if self.image.len() as u64 != directory::image_length(&self.directory) {
            return Err(13);
        }
        let expected = (!self.has(Fault::TakesAnyId)).then_some(expected);
        self.read_record(position, expected, record)
    }

    pub fn read_record(
        &self,
        position: u64,
        expected: Option<u64>,
        record: &mut Record,
    ) -> Result<(), u8> {
        record.fault_at = position;
        if !directory::keeps_the_rules(&self.directory) {
            return Err(13);
        }
        let log = self.log.get(position as usize..).ok_or(14)?;
        record.id = opening(log, true)?;
        if expected.is_some_and(|expected| record.id != expected) {
            return Err(5);
        }
        let mut at = 9;
        loop {
            if !self.has(Fault::StartOfTheRecord) {
                let behind = u64::from(self.has(Fault::BehindTheTag));
                record.fault_at = position + at as u64 + behind;
            }
            let action = self.action(&self.directory, log, at)?;
            if action.tag == 4 {
                if number(&log[action.payload.clone()]) != u64::from(checksum(&log[..=at])) {
                    return Err(8);
                }
                record.behind = position + action.behind() as u64;
                return Ok(());
            }
            at = action.behind();
            self.note(&action, &log[action.payload.clone()], record);
        }
    }

    /// The action whose tag stands at a place inside a record. What its checksum should be is the
    /// caller's to test.
    pub fn action(&self, tables: &[Table], log: &[u8], at: usize) -> Result<Action, u8> {
        // So many bytes from a place on, or 2.
        let part = |at: usize, length: usize| log.get(at..at + length).ok_or(2);
        let tag = part(at, 1)?[0];
        let (kind, fixed) = match tag {
            1 => return Err(4),
            2 => (0, 10),
            3 => (1, 10),
            6 => (2, 10),
            5 => (0, 2),
            7 => (2, 2),
            4 => {
                part(at + 1, 4)?;
                let payload = at + 1..at + 5;
                return Ok(Action { tag, kind: 0, table: 0, index: 0, payload });
            }
            _ => return Err(3),
        };
        let key = part(at + 1, fixed)?;
        let start = at + 1 + fixed;
        let (_, table) = directory::find(tables, kind, number(&key[..2])).ok_or(6)?;
        let (kind, number_of_table) = (kind as usize, table.number);
        if fixed == 2 {
            let payload = start..start;
            return Ok(Action { tag, kind, table: number_of_table, index: 0, payload });
        }
        let index = number(&key[2..]);
        if index >= table.count {
            return Err(7);
        }
        let length = match tag {
            3 => table.length,
            _ => {
                let mask = number(part(start, 8)?);
                8 + u64::from(mask.count_ones()) * (table.place_bytes() / 64)
            }
        };
        part(start, length as usize)?;
        let payload = start..start + length as usize;
        Ok(Action { tag, kind, table: number_of_table, index, payload })
    }

    /// What an action that isn't the end does and names.
    fn note(&self, action: &Action, payload: &[u8], record: &mut Record) {
        let found = directory::find(&self.directory, action.kind as u8, action.table);
        let (start, table) = found.expect("a table that was found before");
        if matches!(action.tag, 5 | 7) {
            let kept = u64::from(self.has(Fault::DropLeavesLastByte));
            let length = table.count * table.place_bytes() - kept;
            record.writes.push((start, vec![0; length as usize]));
            record.drops.push((action.kind, action.table));
            return;
        }
        let place = start + action.index * table.place_bytes();
        if action.tag == 3 {
            record.writes.push((place, payload.to_vec()));
            record.keys.push((1, action.table, action.index, false));
            return;
        }
        let (mask, entries) = payload.split_at(8);
        let mask = number(mask);
        record.keys.push((action.kind, action.table, action.index, mask == 0));
        let width = table.place_bytes() / 64;
        let mut slots: Vec<u64> = (0..64).filter(|slot| mask >> slot & 1 == 1).collect();
        if self.has(Fault::MaskFromTheTop) {
            slots.reverse();
        }
        for (slot, entry) in slots.into_iter().zip(entries.chunks(width as usize)) {
            record.writes.push((place + slot * width, entry.to_vec()));
        }
    }
}

/// An action inside a record, as it is read.
pub struct Action {
    pub tag: u8,
    pub kind: usize,
    pub table: u64,
    pub index: u64,
    /// Everything behind the index; behind an end tag its checksum.
    pub payload: Range<usize>,
}

impl Action {
    pub fn behind(&self) -> usize {
        self.payload.end
    }
}

/// The id, or what the opening is answered with.
pub fn opening(log: &[u8], validate: bool) -> Result<u64, u8> {
    let (tag, behind) = log.split_first().ok_or(1)?;
    let needed = match tag {
        1 => 8,
        2 | 3 | 6 => 10,
        5 | 7 => 2,
        4 => 4,
        _ => return Err(3),
    };
    if behind.len() < needed {
        return Err(1);
    }
    match tag {
        1 => Ok(number(&behind[..8])),
        4 if validate && number(&behind[..4]) != u64::from(checksum(&[4])) => Err(8),
        _ => Err(4),
    }
}

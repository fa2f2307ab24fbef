//! 01, "The opening of a record": a step through it.

use super::{checksum, directory, number, put, replay::opening, Fault, Model, Take};

/// Where a reader stands.
#[derive(Default)]
pub struct Cursor {
    position: u64,
    inside: bool,
    /// What the record's checksum is taken of: the bytes that were read while validating.
    covered: Vec<u8>,
}

impl Model {
    /// The commands 0b and 0c. A refusal leaves the cursor, and the action at fault is the one there.
    pub fn step(&mut self, command: u8, take: &mut Take) -> Vec<u8> {
        if command == 0x0b {
            self.cursor = Cursor { position: take.number(8), ..Cursor::default() };
        }
        let validate = take.number(1) != 0;
        match self.stepped(validate) {
            Ok((answer, cursor)) => {
                self.cursor = cursor;
                self.tell_fault(0, 0);
                answer
            }
            Err(answer) => {
                self.tell_fault(answer, self.cursor.position);
                vec![answer]
            }
        }
    }

    fn stepped(&self, validate: bool) -> Result<(Vec<u8>, Cursor), u8> {
        if !directory::keeps_the_rules(&self.directory) {
            return Err(13);
        }
        let position = self.cursor.position;
        let rest = self.log.get(position as usize..).ok_or(14)?;
        if !self.cursor.inside {
            let cut_is_2 = self.has(Fault::CutOpeningsByBeginAlone) && rest.first() != Some(&1);
            let id = opening(rest, validate).map_err(|answer| match answer {
                1 if cut_is_2 && !rest.is_empty() => 2,
                _ => answer,
            })?;
            let answer = told(1, [0, 0, id, 0, 0, position + 9]);
            return Ok((answer, self.moved(&rest[..9], validate, true)));
        }
        let action = self.action(&self.directory, rest, 0)?;
        let read = &rest[..action.behind()];
        let behind = position + read.len() as u64;
        if action.tag == 4 {
            let covered = [&self.cursor.covered[..], &[4]].concat();
            if validate && number(&rest[1..5]) != u64::from(checksum(&covered)) {
                return Err(8);
            }
            return Ok((told(4, [0, 0, 0, 0, 0, behind]), self.moved(read, validate, false)));
        }
        let (start, length) = match action.payload.len() as u64 {
            0 => (0, 0),
            length => (position + action.payload.start as u64, length),
        };
        let numbers = [action.table, action.index, 0, start, length, behind];
        Ok((told(action.tag, numbers), self.moved(read, validate, true)))
    }

    fn moved(&self, read: &[u8], validate: bool, inside: bool) -> Cursor {
        let before: &[u8] = if self.cursor.inside { &self.cursor.covered } else { &[] };
        let counts = validate || self.has(Fault::SumsWhatIsntValidated);
        let covered = [before, if counts { read } else { &[] }].concat();
        Cursor { position: self.cursor.position + read.len() as u64, inside, covered }
    }
}

/// Tag, and table, index, id, place and length of the payload, and the cursor.
fn told(tag: u8, numbers: [u64; 6]) -> Vec<u8> {
    let mut answer = vec![0, tag];
    put(&mut answer, numbers[0], 2);
    numbers[1..].iter().for_each(|number| put(&mut answer, *number, 8));
    answer
}

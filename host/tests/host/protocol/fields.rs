//! The fields of commands and answers.

/// What is left of a command.
pub struct Fields<'a>(pub &'a [u8]);

impl<'a> Fields<'a> {
    pub fn bytes(&mut self, length: usize) -> &'a [u8] {
        let (taken, rest) = self.0.split_at(length);
        self.0 = rest;
        taken
    }

    /// A number of so many bytes.
    pub fn number(&mut self, length: usize) -> u64 {
        self.bytes(length).iter().rev().fold(0, |number, byte| number << 8 | u64::from(*byte))
    }

    pub fn flag(&mut self) -> bool {
        self.number(1) != 0
    }

    pub fn blob(&mut self) -> &'a [u8] {
        let length = self.number(4) as usize;
        self.bytes(length)
    }

    pub fn nums(&mut self) -> Vec<u64> {
        let count = self.number(2);
        (0..count).map(|_| self.number(4)).collect()
    }
}

/// An answer that is being made.
#[derive(Default)]
pub struct Row(pub Vec<u8>);

impl Row {
    pub fn of(number: u64) -> Row {
        Row::default().number(number, 1)
    }

    pub fn number(mut self, number: u64, length: usize) -> Row {
        self.0.extend(&number.to_le_bytes()[..length]);
        self
    }

    pub fn blob(self, bytes: &[u8]) -> Row {
        let mut row = self.number(bytes.len() as u64, 4);
        row.0.extend(bytes);
        row
    }

    pub fn nums(self, numbers: &[u64]) -> Row {
        numbers.iter().fold(self.number(numbers.len() as u64, 2), |row, number| row.number(*number, 4))
    }
}

/// A directory's tables: kind, number, column, count, length.
pub fn tables_in(command: &[u8]) -> Vec<[u64; 5]> {
    let mut fields = Fields(&command[1..]);
    let count = fields.number(1);
    (0..count).map(|_| [1, 2, 1, 2, 2].map(|length| fields.number(length))).collect()
}

/// The files that an OPEN tells of: name and bytes.
pub fn files_in(command: &[u8]) -> Vec<(&[u8], &[u8])> {
    let mut fields = Fields(&command[1..]);
    let count = fields.number(2);
    let mut file = |_| {
        let length = fields.number(1) as usize;
        (fields.bytes(length), fields.blob())
    };
    (0..count).map(&mut file).collect()
}

/// The answer to SALVAGE: four words a line, then as to WRITE.
pub fn salvaged(answer: u64, lines: &[[u64; 4]], output: &[u8], size: usize) -> Vec<u8> {
    let row = Row::of(answer).number(lines.len() as u64, 2);
    let line = |row: Row, [kept, position, length, id]: &[u64; 4]| {
        row.number(*kept, 1).number(*position, 8).number(*length, 8).number(*id, 8)
    };
    written(lines.iter().fold(row, line).number(size as u64, 4), output, size)
}

/// The answer to END or WRITE: what was written of an output, and the checksum of all of it.
pub fn written(row: Row, output: &[u8], size: usize) -> Vec<u8> {
    row.blob(&output[..size]).number(hongsathep::checksum(output).into(), 4).0
}

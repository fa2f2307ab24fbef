//! The letters of the run protocol: opcodes, numbers, tags, hex lines, fields, a step's answer.

/// The opcodes that the driver answers.
pub mod op {
    pub const DIR: u8 = 0x01;
    pub const IMAGE: u8 = 0x02;
    pub const LOG: u8 = 0x03;
    pub const CRC: u8 = 0x04;
    pub const NEWLIST: u8 = 0x05;
    pub const INS_INDEX: u8 = 0x06;
    pub const INS_VALUE: u8 = 0x07;
    pub const INS_REF: u8 = 0x08;
    pub const DROP: u8 = 0x09;
    pub const DROP_REF: u8 = 0x0a;
    pub const STEP_AT: u8 = 0x0b;
    pub const STEP: u8 = 0x0c;
    pub const REPLAY: u8 = 0x0d;
    pub const RUN: u8 = 0x0e;
    pub const IMAGE_SUM: u8 = 0x0f;
    pub const OPEN: u8 = 0x10;
    pub const BEGIN: u8 = 0x11;
    pub const END: u8 = 0x12;
    pub const CLEAR: u8 = 0x13;
    pub const FLUSH: u8 = 0x14;
    pub const READ_NEXT: u8 = 0x15;
    pub const REPLAY_NEXT: u8 = 0x16;
    pub const CLEAN: u8 = 0x17;
    pub const CLEAR_REPLAY: u8 = 0x18;
    pub const KILL: u8 = 0x19;
    pub const LOOKUP: u8 = 0x1a;
    pub const VALUE_INTO: u8 = 0x1b;
    pub const STATE: u8 = 0x1c;
    pub const OVERLAYS: u8 = 0x1d;
    pub const LAST_ID: u8 = 0x1e;
    pub const FORGE_QUEUES: u8 = 0x1f;
    pub const FORGE_NEXT_ID: u8 = 0x20;
    pub const FORGE_LIST: u8 = 0x21;
    pub const FORGE_OVERLAY: u8 = 0x22;
    pub const LIST_SUM: u8 = 0x23;
    pub const FORGE_DROP: u8 = 0x24;
    /// From here on the calls of document 02.
    pub const WHERE: u8 = 0x30;
    pub const CHECK_NEW: u8 = 0x36;
    pub const PIECE: u8 = 0x37;
    pub const CLOSE: u8 = 0x38;
    pub const SALVAGE: u8 = 0x39;
    /// Additions to the protocol: docs/ORACLE.md.
    pub const WRITE: u8 = 0xf0;
    pub const LENT: u8 = 0xf1;
    pub const SIZE: u8 = 0xf2;
}

/// The numbered answers of document 01 that the driver and the listed differences name.
pub mod number {
    pub const DONE: u8 = 0;
    pub const END_OF_LOG: u8 = 1;
    pub const ENDS_INSIDE: u8 = 2;
    pub const UNKNOWN_TAG: u8 = 3;
    pub const BEGIN_MISPLACED: u8 = 4;
    pub const OTHER_ID: u8 = 5;
    pub const UNKNOWN_TABLE: u8 = 6;
    pub const INDEX_TOO_LARGE: u8 = 7;
    pub const CHECKSUM_DIFFERS: u8 = 8;
    pub const NO_ROOM: u8 = 9;
    pub const OUTPUT_TOO_SHORT: u8 = 10;
    /// The list's id plus 1 isn't the next id.
    pub const STALE_LIST: u8 = 11;
    pub const USED_UP: u8 = 12;
    pub const RULE_BROKEN: u8 = 13;
    /// Also a slot above 63, and a chunk or value of the wrong length.
    pub const BEYOND_THE_END: u8 = 14;
}

/// The tags of a record's actions.
pub mod tag {
    pub const BEGIN: u8 = 1;
    pub const INDEX: u8 = 2;
    pub const VALUE: u8 = 3;
    pub const END: u8 = 4;
    pub const DROP_INDEX: u8 = 5;
    pub const REF_COUNT: u8 = 6;
    pub const DROP_REF_COUNT: u8 = 7;
}

/// What an opcode that is not driven yet is answered with.
pub const NOT_DRIVEN: u8 = 0xff;

/// What a call is answered with in which the Rust fails with an error that has no number.
pub const RUST_FAILS: u8 = 0xfe;

/// The longest log and blob of a script.
pub const LONGEST_LOG: usize = 80_000;

/// Its longest image.
pub const LONGEST_IMAGE: usize = 300_000;

/// Its longest output.
pub const LONGEST_OUTPUT: usize = 60_000;

/// A script is a list of commands, each as bytes.
pub type Script = Vec<Vec<u8>>;

pub fn to_hex(bytes: &[u8]) -> String {
    const DIGITS: &[u8; 16] = b"0123456789abcdef";
    let mut line = String::with_capacity(2 * bytes.len());
    for byte in bytes {
        line.push(DIGITS[(byte >> 4) as usize] as char);
        line.push(DIGITS[(byte & 15) as usize] as char);
    }
    line
}

/// Commands or answers, one a line.
pub fn lines_of(rows: &[Vec<u8>]) -> String {
    rows.iter().map(|row| to_hex(row) + "\n").collect()
}

/// The bytes of a line of hex, or none if it isn't one.
pub fn from_hex(line: &str) -> Option<Vec<u8>> {
    let digit = |byte: u8| (byte as char).to_digit(16);
    line.as_bytes()
        .chunks(2)
        .map(|pair| match *pair {
            [high, low] => Some((digit(high)? << 4 | digit(low)?) as u8),
            _ => None,
        })
        .collect()
}

/// The fields of a command or an answer, taken from the front; it panics where they run out.
pub struct Fields<'a>(pub &'a [u8]);

impl<'a> Fields<'a> {
    fn take<const N: usize>(&mut self) -> [u8; N] {
        let (taken, rest) = self.0.split_first_chunk().expect("a command is too short");
        self.0 = rest;
        *taken
    }

    pub fn u8(&mut self) -> u8 {
        self.take::<1>()[0]
    }

    pub fn u16(&mut self) -> u16 {
        u16::from_le_bytes(self.take())
    }

    pub fn u32(&mut self) -> u32 {
        u32::from_le_bytes(self.take())
    }

    pub fn u64(&mut self) -> u64 {
        u64::from_le_bytes(self.take())
    }

    /// A number that need not be there.
    pub fn file(&mut self) -> Option<u32> {
        let is_there = self.u8() != 0;
        Some(self.u32()).filter(|_| is_there)
    }

    pub fn nums(&mut self) -> Vec<u32> {
        let count = self.u16();
        (0..count).map(|_| self.u32()).collect()
    }

    pub fn blob(&mut self) -> &'a [u8] {
        let length = self.u32() as usize;
        let (taken, rest) = self.0.split_at(length);
        self.0 = rest;
        taken
    }
}

/// The command of an opcode and a blob.
pub fn with_blob(opcode: u8, blob: &[u8]) -> Vec<u8> {
    let mut command = vec![opcode];
    put_blob(&mut command, blob);
    command
}

/// Puts a blob behind a row, that is a command or an answer.
pub fn put_blob(row: &mut Vec<u8>, blob: &[u8]) {
    row.extend((blob.len() as u32).to_le_bytes());
    row.extend(blob);
}

/// The command that hands over an image.
pub fn image(length: usize, fill: u8) -> Vec<u8> {
    [&[op::IMAGE], &(length as u32).to_le_bytes()[..], &[fill]].concat()
}

/// From here on the port hands each directory on as a lent slice, or by value again.
pub fn lent(is_lent: bool) -> Vec<u8> {
    vec![op::LENT, is_lent.into()]
}

/// REPLAY or RUN.
pub fn replaying(opcode: u8, position: u64, expected: u64) -> Vec<u8> {
    [&[opcode], &position.to_le_bytes()[..], &expected.to_le_bytes()].concat()
}

/// Puts a number that need not be there behind a row.
pub fn put_file(row: &mut Vec<u8>, number: Option<u32>) {
    row.push(number.is_some().into());
    row.extend(number.unwrap_or(0).to_le_bytes());
}

/// Puts `nums` behind a row.
pub fn put_nums(row: &mut Vec<u8>, nums: &[u32]) {
    row.extend((nums.len() as u16).to_le_bytes());
    row.extend(nums.iter().flat_map(|num| num.to_le_bytes()));
}

/// What STEP tells when its answer is 0.
#[derive(Debug, Default, PartialEq)]
pub struct Stepped {
    pub tag: u8,
    pub table: u16,
    pub index: u64,
    pub id: u64,
    pub payload_start: u64,
    pub payload_length: u64,
    pub cursor: u64,
}

impl Stepped {
    const ANSWER_LENGTH: usize = 44;

    pub fn has_payload(&self) -> bool {
        matches!(self.tag, tag::INDEX | tag::VALUE | tag::REF_COUNT)
    }

    pub fn answer(&self) -> Vec<u8> {
        let mut answer = vec![number::DONE, self.tag];
        answer.extend(self.table.to_le_bytes());
        let numbers = [self.index, self.id, self.payload_start, self.payload_length, self.cursor];
        answer.extend(numbers.into_iter().flat_map(u64::to_le_bytes));
        answer
    }

    /// None if the step was refused.
    pub fn from_answer(answer: &[u8]) -> Option<Stepped> {
        if answer.len() != Self::ANSWER_LENGTH || answer[0] != number::DONE {
            return None;
        }
        let mut fields = Fields(&answer[1..]);
        Some(Stepped {
            tag: fields.u8(),
            table: fields.u16(),
            index: fields.u64(),
            id: fields.u64(),
            payload_start: fields.u64(),
            payload_length: fields.u64(),
            cursor: fields.u64(),
        })
    }
}

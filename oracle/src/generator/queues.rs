//! The forms for the file queues. Each starts with a state of its own, and looks at the state behind
//! every call. States are forged where it can be: the Rust's open makes an overlay for every table
//! number, which takes long.

use super::{records::known_tags_with_few_bytes, Form, Generator};
use crate::{
    demanded::Demanded,
    names::Found,
    protocol::{op, put_file, put_nums, tag, with_blob, Fields},
};

pub const FORMS: [Form; 7] = [
    Generator::lives,
    Generator::opened_names,
    Generator::opened_too_much,
    Generator::forged_queues,
    Generator::broken_queues,
    Generator::openings_in_files,
    Generator::flushes,
];

/// Where FORGE_QUEUES puts which numbers.
#[derive(Clone, Default)]
pub struct Queues {
    pub appending: Option<u32>,
    pub size: u64,
    pub reading: Option<u32>,
    pub read_queue: Vec<u32>,
    pub cleanup: Vec<u32>,
    pub pool: Vec<u32>,
    pub replay: Vec<u32>,
    pub next: u32,
    pub dirty: bool,
}

impl Queues {
    /// As STATE shows them.
    pub fn from_state(state: &[u8]) -> Queues {
        let mut fields = Fields(state);
        Queues {
            appending: fields.file(),
            size: fields.u64(),
            reading: fields.file(),
            read_queue: fields.nums(),
            cleanup: fields.nums(),
            pool: fields.nums(),
            ..Queues::default()
        }
    }

    pub fn command(&self) -> Vec<u8> {
        let mut command = vec![op::FORGE_QUEUES];
        put_file(&mut command, self.appending);
        command.extend(self.size.to_le_bytes());
        put_file(&mut command, self.reading);
        for queue in [&self.read_queue, &self.cleanup, &self.pool, &self.replay] {
            put_nums(&mut command, queue);
        }
        command.extend(self.next.to_le_bytes());
        command.push(self.dirty.into());
        command
    }

    fn numbers(&self) -> Vec<u32> {
        let queues = [&self.read_queue, &self.cleanup, &self.pool, &self.replay];
        let queued = queues.into_iter().flatten().copied();
        queued.chain(self.appending).chain(self.reading).collect()
    }
}

pub type Break = fn(&mut Generator, &mut Queues);

/// Ways to break a rule of the queues. Those told to be shown leave a state that any state type
/// has room for, so that it can be looked at.
pub const QUEUE_BREAKS: [(Break, bool); 7] = [
    (Generator::number_in_two_places, true),
    (Generator::number_twice_in_a_queue, true),
    (Generator::number_not_below_the_next, true),
    (Generator::pool_not_ascending, true),
    (Generator::size_too_large, true),
    (Generator::pool_too_large, false),
    (Generator::too_many_files, false),
];

impl Generator {
    /// A log's life: records ended by the Rust's own writer, flushed, read, cleaned, killed, and
    /// opened again. A log of the Rust's goes along, so that the files are read as it wrote them.
    fn lives(&mut self) {
        let mut life = Demanded::new().expect("a log to go along");
        self.script.push(Found::command(&[]));
        let calls = if self.small { 25 } else { 200 };
        // In every other life files pile up, as they are seldom cleaned.
        let piles_up = self.random.one_in(2);
        for _ in 0..calls {
            match self.random.below(20) {
                14..=18 if piles_up && !self.random.one_in(20) => {
                    self.end_a_record(&mut life);
                    self.lead(&mut life, with_number(op::FLUSH, 0));
                }
                0..=5 => self.end_a_record(&mut life),
                6..=8 => {
                    let size = life.driver().appended();
                    let minimum = self.random.pick(&[0, 0, 0, size, size.wrapping_sub(1), 50]);
                    self.lead(&mut life, with_number(op::FLUSH, minimum));
                }
                9..=13 => self.read_in_life(&mut life),
                14 => self.lead(&mut life, vec![op::REPLAY_NEXT]),
                15..=17 => {
                    let most = self.random.pick(&[0, 1, 1, 2, 3, 64, u64::MAX]);
                    self.lead(&mut life, with_number(op::CLEAN, most));
                }
                18 => self.end_of_life(&mut life),
                _ => self.end_a_record(&mut life),
            }
        }
    }

    fn end_a_record(&mut self, life: &mut Demanded) {
        let drops = self.random.below(5) as u16;
        if let Some(forging) = life.driver().end_a_record(drops) {
            self.script.push(forging);
            self.script.push(vec![op::STATE]);
        }
    }

    /// Most often the bytes of the very file, at the start of a record or the end.
    fn read_in_life(&mut self, life: &mut Demanded) {
        let mut bytes = life.driver().bytes_to_read();
        if self.random.one_in(8) {
            let behind = self.random.below(12);
            bytes = self.random.bytes(1 + behind);
            bytes[0] = self.random.below(9) as u8;
        }
        let position = match self.random.below(8) {
            0 => self.random.below(bytes.len() + 2),
            1 => bytes.len(),
            _ => self.random.pick(&record_starts(&bytes)),
        };
        let log = with_blob(op::LOG, &bytes);
        life.answer(&log);
        self.script.push(log);
        let validate = self.random.below(2) as u8;
        self.lead(life, reading(position as u64, validate));
    }

    /// Rare calls: all that is there is cleared, killed or opened again.
    fn end_of_life(&mut self, life: &mut Demanded) {
        match self.random.below(4) {
            0 => self.lead(life, vec![op::CLEAR_REPLAY]),
            1 => self.lead(life, vec![op::KILL]),
            _ => {
                let found = life.driver().files();
                self.lead(life, Found::command(&found));
            }
        }
    }

    /// A call that both the script and the log beside it take.
    fn lead(&mut self, life: &mut Demanded, command: Vec<u8>) {
        life.answer(&command);
        self.call_and_look(command);
    }

    /// Names of all sorts, then calls on what was opened.
    fn opened_names(&mut self) {
        self.forge_a_few();
        let count = self.random.below(12);
        let mut found: Vec<Found> = (0..count).map(|_| self.found()).collect();
        if !self.random.one_in(8) {
            found = without_a_name_twice(found);
        }
        self.call_and_look(Found::command(&found));
        self.some_calls(20, 0);
    }

    fn found(&mut self) -> Found {
        let length = self.random.pick(&[0, 1, 8, 9, 9, 9, 10, 23]);
        let mut bytes = self.random.bytes(length);
        // Few ids, so that they tie.
        if let Some(id) = bytes.get_mut(1..9) {
            let small = self.random.below(3) as u64;
            let any = self.random.number();
            id.copy_from_slice(&self.random.pick(&[small, small, any, u64::MAX]).to_le_bytes());
        }
        Found { name: self.name(), bytes }
    }

    fn name(&mut self) -> Vec<u8> {
        let few = self.random.below(20) as u32;
        let any = self.random.number() as u32;
        let number = self.random.pick(&[few, few, few, any, u32::MAX - 1, 0]);
        match self.random.below(24) {
            0 => format!("log0{few}").into_bytes(),
            1 => format!("log+{few}").into_bytes(),
            2 => self.random.pick(&ODD_NAMES).to_vec(),
            3 => [b"log", &b"1".repeat(self.random.between(10, 252))[..]].concat(),
            4 => {
                let length = self.random.between(0, 8);
                self.random.bytes(length)
            }
            5 if self.random.one_in(4) => b"log4294967295".to_vec(),
            _ => format!("log{number}").into_bytes(),
        }
    }

    /// Up to 80 files: 13, 9 and 12, and which of them comes first; a refused OPEN leaves the state.
    fn opened_too_much(&mut self) {
        self.forge_a_few();
        let kept = self.random.pick(&[63, 64, 64, 65, 66, 75]);
        let mut found: Vec<Found> = (0..kept).map(|number| file_of(number, 9)).collect();
        for _ in 0..self.random.below(3) {
            found.push(file_of(self.random.between(100, 120) as u32, 8));
        }
        if self.random.one_in(3) {
            let length = self.random.pick(&[8, 9]);
            found.push(file_of(u32::MAX, length));
        }
        if self.random.one_in(4) {
            let again = self.random.pick(&[0, kept - 1]);
            let length = self.random.pick(&[0, 9]);
            found.push(file_of(again, length));
        }
        let place = self.random.below(found.len());
        found.rotate_left(place);
        self.call_and_look(Found::command(&found));
        self.some_calls(20, 0);
    }

    fn forged_queues(&mut self) {
        let few = self.random.below(8);
        let many = self.random.between(0, 64);
        let files = self.random.pick(&[few, few, many, 64]);
        let queues = self.queues(files);
        self.script.push(queues.command());
        self.script.push(vec![op::STATE]);
        self.some_calls(12, queues.size);
    }

    /// Every call under each broken rule; then the same queues without the break.
    fn broken_queues(&mut self) {
        for (broken, shown) in QUEUE_BREAKS {
            let good = self.hand_broken_queues(broken);
            let calls = [op::REPLAY_NEXT, op::CLEAR_REPLAY, op::KILL].map(|opcode| vec![opcode]);
            self.script.extend(calls);
            self.script.push(with_number(op::FLUSH, 0));
            self.script.push(with_number(op::CLEAN, 1));
            let position = self.random.pick(&[0, 1, u64::MAX]);
            self.script.push(reading(position, 1));
            // A state that is too large may only be left by an open.
            self.script.push(if shown { vec![op::STATE] } else { Found::command(&[]) });
            self.script.push(good.command());
            self.some_calls(2, good.size);
        }
    }

    /// Hands over queues that break a rule, and tells what they are without the break.
    pub fn hand_broken_queues(&mut self, broken: Break) -> Queues {
        let files = self.random.below(8);
        let good = self.queues(files);
        let mut queues = good.clone();
        broken(self, &mut queues);
        self.script.push(queues.command());
        good
    }

    /// Tags with few bytes behind them, at the front of the read queue and in the file being read.
    fn openings_in_files(&mut self) {
        for (tag, behind) in known_tags_with_few_bytes() {
            let start = self.random.below(3);
            let being_read = self.random.one_in(2);
            let mut queues = Queues { read_queue: vec![4, 2], next: 5, ..Queues::default() };
            queues.reading = being_read.then_some(1);
            self.script.push(queues.command());
            self.hand_opening(if being_read { start } else { 0 }, tag, behind);
            for _ in 0..self.random.between(1, 2) {
                let validate = self.random.below(2) as u8;
                self.call_and_look(reading(start as u64, validate));
            }
        }
    }

    /// Sizes around the minimum.
    fn flushes(&mut self) {
        let any = self.random.number() >> 1;
        let size = self.random.pick(&[0, 1, 10, any, (1 << 63) - 1]);
        let appending = (!self.random.one_in(5)).then_some(1);
        let size = if appending.is_some() { size } else { 0 };
        let queues = Queues { appending, size, read_queue: vec![2], next: 3, ..Queues::default() };
        for minimum in [size, size.wrapping_sub(1), size + 1, 0, 10, u64::MAX] {
            self.script.push(queues.command());
            self.call_and_look(with_number(op::FLUSH, minimum));
            self.call_and_look(with_number(op::FLUSH, 0));
        }
    }
}

const ODD_NAMES: [&[u8]; 16] = [
    b"",
    b"log",
    b"log-1",
    b"log 7",
    b"log7 ",
    b"log1x",
    b"log0x1",
    b"LOG1",
    b"xlog1",
    b"lo",
    b"log/1",
    b"..",
    b"log\xd9\xa7",
    b"log\xff",
    b"log4294967296",
    b"log18446744073709551617",
];

/// The breaking of rules.
impl Generator {
    fn number_in_two_places(&mut self, queues: &mut Queues) {
        queues.read_queue = vec![3];
        queues.next = queues.next.max(4);
        match self.random.below(4) {
            0 => queues.appending = Some(3),
            1 => queues.reading = Some(3),
            2 => queues.replay = vec![3],
            _ => queues.cleanup = vec![3],
        }
    }

    fn number_twice_in_a_queue(&mut self, queues: &mut Queues) {
        queues.next = queues.next.max(4);
        let queue = match self.random.below(4) {
            0 => &mut queues.read_queue,
            1 => &mut queues.replay,
            2 => &mut queues.pool,
            _ => &mut queues.cleanup,
        };
        *queue = vec![3, 3];
    }

    fn number_not_below_the_next(&mut self, queues: &mut Queues) {
        queues.next = queues.numbers().into_iter().max().unwrap_or(0);
        if queues.numbers().is_empty() {
            queues.reading = Some(queues.next);
        }
    }

    fn pool_not_ascending(&mut self, queues: &mut Queues) {
        *queues = Queues { pool: vec![2, 5, 4], next: 6, ..Queues::default() };
    }

    fn size_too_large(&mut self, queues: &mut Queues) {
        queues.size = self.random.pick(&[1 << 63, u64::MAX]);
        if queues.appending.is_none() {
            queues.appending = Some(queues.next);
            queues.next += 1;
        }
    }

    fn pool_too_large(&mut self, queues: &mut Queues) {
        *queues = Queues { pool: (0..17).collect(), next: 17, ..Queues::default() };
    }

    fn too_many_files(&mut self, queues: &mut Queues) {
        *queues = Queues { cleanup: (0..65).collect(), next: 65, ..Queues::default() };
    }

    /// Queues of so many files that keep all rules.
    fn queues(&mut self, files: usize) -> Queues {
        let mut queues = Queues { dirty: self.random.one_in(2), ..Queues::default() };
        let mut number = 0;
        for _ in 0..files {
            number += self.random.pick(&[0, 0, 0, 1, 5]);
            match self.random.below(6) {
                0 if queues.appending.is_none() => queues.appending = Some(number),
                1 if queues.reading.is_none() => queues.reading = Some(number),
                2 if queues.pool.len() < 16 => queues.pool.push(number),
                3 => self.put_anywhere(&mut queues.cleanup, number),
                4 => self.put_anywhere(&mut queues.replay, number),
                _ => self.put_anywhere(&mut queues.read_queue, number),
            }
            number += 1;
        }
        queues.next = self.random.pick(&[number, number, number + 3, u32::MAX - 1]);
        if queues.appending.is_some() {
            queues.size = self.random.pick(&[0, 10, 14, 50_526, (1 << 63) - 1]);
        }
        queues
    }

    fn put_anywhere(&mut self, queue: &mut Vec<u32>, number: u32) {
        let place = self.random.between(0, queue.len());
        queue.insert(place, number);
    }
}

/// The commands.
impl Generator {
    fn forge_a_few(&mut self) {
        let files = self.random.below(5);
        let queues = self.queues(files);
        self.script.push(queues.command());
    }

    /// Calls of all sorts, their minimums around a size.
    fn some_calls(&mut self, most: usize, size: u64) {
        for _ in 0..self.random.between(1, most) {
            let call = self.queue_call(size);
            self.call_and_look(call);
        }
    }

    fn call_and_look(&mut self, command: Vec<u8>) {
        self.script.push(command);
        self.script.push(vec![op::STATE]);
    }

    fn queue_call(&mut self, size: u64) -> Vec<u8> {
        match self.random.below(12) {
            0..=1 => {
                let minimum = self.random.pick(&[0, size, size.wrapping_sub(1), u64::MAX]);
                with_number(op::FLUSH, minimum)
            }
            2..=5 => {
                let (start, tag) = (self.random.below(3), self.random.pick(&[1, 1, 1, 2, 4, 5, 8]));
                let behind = self.random.pick(&[0, 3, 8, 10]);
                self.hand_opening(start, tag, behind);
                let position = self.random.pick(&[0, start as u64, start as u64, 20]);
                reading(position, 1)
            }
            6..=7 => vec![op::REPLAY_NEXT],
            8..=9 => {
                let most = self.random.pick(&[0, 1, 2, 20, 64, u64::MAX]);
                with_number(op::CLEAN, most)
            }
            10 => vec![op::CLEAR_REPLAY],
            _ => vec![op::KILL],
        }
    }
}

pub fn with_number(opcode: u8, number: u64) -> Vec<u8> {
    [&[opcode], &number.to_le_bytes()[..]].concat()
}

pub fn reading(position: u64, validate: u8) -> Vec<u8> {
    [&with_number(op::READ_NEXT, position)[..], &[validate]].concat()
}

fn file_of(number: u32, length: usize) -> Found {
    let mut bytes = vec![1; length];
    if let Some(id) = bytes.get_mut(1..9) {
        id.copy_from_slice(&u64::from(number % 7).to_le_bytes());
    }
    Found { name: format!("log{number}").into_bytes(), bytes }
}

fn without_a_name_twice(found: Vec<Found>) -> Vec<Found> {
    let mut single: Vec<Found> = Vec::new();
    for file in found {
        if single.iter().all(|other| other.name != file.name) {
            single.push(file);
        }
    }
    single
}

/// Where the records start that `end_a_record` has written, and where the last of them ends.
fn record_starts(bytes: &[u8]) -> Vec<usize> {
    const BEGIN: usize = 9;
    const DROP: usize = 3;
    const END: usize = 5;
    let mut starts = vec![0];
    let mut at = BEGIN;
    while let Some(tag) = bytes.get(at) {
        match *tag {
            tag::DROP_INDEX => at += DROP,
            _ => {
                at += END;
                starts.push(at.min(bytes.len()));
                at += BEGIN;
            }
        }
    }
    starts
}

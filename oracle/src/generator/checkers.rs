//! The forms for CHECK_NEW, PIECE and CLOSE. Whatever a log is, it is handed over in pieces of its own.

use super::{
    directories::BREAKS,
    records::{known_tags_with_few_bytes, FAULTS},
    Form, Generator,
};
use crate::{
    directory::Directory,
    protocol::{op, with_blob},
};

pub const FORMS: [Form; 8] = [
    Generator::checked_runs,
    Generator::checked_damage,
    Generator::checked_faults,
    Generator::checked_openings,
    Generator::checked_byte_by_byte,
    Generator::checked_ids,
    Generator::checks_beyond_the_close,
    Generator::checks_under_broken_directories,
];

impl Generator {
    fn checked_runs(&mut self) {
        let directory = self.hand_directory();
        let first = self.id();
        let count = self.random.below(6);
        let mut log = self.run_of_records(&directory, first, count, 4);
        let noise = self.random.below(12);
        log.bytes.extend(self.random.bytes(noise));
        self.check_in_pieces(&log.bytes, first);
    }

    fn checked_damage(&mut self) {
        let directory = self.hand_directory();
        let first = self.id();
        let count = self.random.between(1, 4);
        let mut log = self.run_of_records(&directory, first, count, 3);
        self.damage(&mut log);
        self.check_in_pieces(&log.bytes, first);
        let cut = self.random.between(0, log.bytes.len());
        self.check_in_pieces(&log.bytes[..cut], first);
    }

    /// Each sort of refused action, with more behind it, which isn't looked at.
    fn checked_faults(&mut self) {
        let directory = self.hand_directory();
        for fault in FAULTS {
            let first = self.id();
            let mut log = self.run_of_records(&directory, first, 1, 2);
            log.begin(first.wrapping_add(1));
            self.actions(&mut log, &directory, 2);
            fault(self, &mut log, &directory);
            log.end();
            self.check_in_pieces(&log.bytes, first);
        }
    }

    /// Tags with few bytes behind them, where a record should begin and inside one.
    fn checked_openings(&mut self) {
        let directory = self.hand_directory();
        for (tag, behind) in known_tags_with_few_bytes() {
            let first = self.id();
            let inside = self.random.one_in(2);
            let mut log = self.run_of_records(&directory, first, usize::from(!inside), 1);
            if inside {
                log.begin(first);
            }
            let fields = self.key_fields(&directory, tag, behind);
            log.put(&[&[tag], &fields]);
            self.check_byte_by_byte(&log.bytes, first);
        }
    }

    /// So each byte that decides is seen to decide.
    fn checked_byte_by_byte(&mut self) {
        let directory = self.hand_directory();
        let first = self.id();
        let mut log = self.short_log(|generator| generator.run_of_records(&directory, first, 2, 2));
        if self.random.one_in(2) {
            self.damage(&mut log);
        }
        self.check_byte_by_byte(&log.bytes, first);
    }

    /// Ids that aren't expected, and the last of all.
    fn checked_ids(&mut self) {
        let directory = self.hand_directory();
        let before = self.random.below(3);
        let last = u64::MAX - before as u64;
        for (first, expected) in [(last, last), (7, 8), (0, 0), (1 << 32, 0), (u64::MAX, u64::MAX)]
        {
            let log = self.run_of_records(&directory, first, before + 2, 1);
            self.check_in_pieces(&log.bytes, expected);
        }
    }

    /// A call after the close; a checker that is left for another, with a directory that changed since.
    fn checks_beyond_the_close(&mut self) {
        let directory = self.hand_directory();
        let log = self.run_of_records(&directory, 1, 2, 2);
        self.check_in_pieces(&log.bytes, 1);
        for _ in 0..3 {
            let calls = [vec![op::CLOSE], with_blob(op::PIECE, &[]), with_blob(op::PIECE, &[8])];
            let place = self.random.below(calls.len());
            self.ask(calls[place].clone());
        }
        self.begin_check(1);
        let half = self.random.between(0, log.bytes.len());
        self.ask(with_blob(op::PIECE, &log.bytes[..half]));
        self.hand_directory();
        self.ask(with_blob(op::PIECE, &log.bytes[half..]));
        self.ask(vec![op::CLOSE]);
        self.begin_check(1);
        self.ask(vec![op::CLOSE]);
    }

    fn checks_under_broken_directories(&mut self) {
        let log = self.records(&Directory::default(), 2, 0);
        for broken in BREAKS {
            self.hand_broken_directory(broken);
            self.check_in_pieces(&log.bytes, 1);
            self.ask(with_blob(op::PIECE, &[]));
            self.ask(vec![op::CLOSE]);
        }
    }
}

/// The commands.
impl Generator {
    /// Every call may be asked where the log is at fault.
    fn ask(&mut self, command: Vec<u8>) {
        self.script.extend([command, vec![op::WHERE]]);
    }

    fn begin_check(&mut self, first_id: u64) {
        self.ask([&[op::CHECK_NEW], &first_id.to_le_bytes()[..]].concat());
    }

    /// Few pieces or many, now and then of no bytes.
    fn check_in_pieces(&mut self, log: &[u8], first_id: u64) {
        self.begin_check(first_id);
        let most = self.random.pick(&[1, 7, 40, 400, log.len().max(1)]);
        let mut rest = log;
        let mut pieces = 0;
        while !rest.is_empty() && pieces < 60 {
            let length = self.random.between(0, most.min(rest.len()));
            self.ask(with_blob(op::PIECE, &rest[..length]));
            rest = &rest[length..];
            pieces += 1;
        }
        self.ask(with_blob(op::PIECE, rest));
        self.ask(vec![op::CLOSE]);
    }

    fn check_byte_by_byte(&mut self, log: &[u8], first_id: u64) {
        self.begin_check(first_id);
        log.iter().for_each(|byte| self.ask(with_blob(op::PIECE, &[*byte])));
        self.ask(vec![op::CLOSE]);
    }
}

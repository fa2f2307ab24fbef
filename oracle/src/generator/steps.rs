//! The forms for STEP_AT and STEP, and for CRC.

use super::{
    directories::BREAKS,
    log_bytes::LogBytes,
    records::{known_tags_with_few_bytes, with_few_bytes, FAULTS},
    Form, Generator,
};
use crate::protocol::{op, with_blob, LONGEST_LOG};

pub const FORMS: [Form; 14] = [
    Generator::whole_records,
    Generator::damaged_records,
    Generator::faulty_actions,
    Generator::every_cut,
    Generator::openings,
    Generator::insides,
    Generator::positions,
    Generator::broken_directories,
    Generator::changes_under_a_cursor,
    Generator::validation_switched,
    Generator::checksum_mended,
    Generator::noise,
    Generator::long_records,
    Generator::checksums,
];

/// Whether the steps of a chain validate.
#[derive(Clone, Copy)]
enum Validate {
    Always,
    Never,
    Mixed,
}

impl Generator {
    /// Records one behind the other, walked from the first and from any of them.
    fn whole_records(&mut self) {
        let directory = self.hand_directory();
        let log = self.records(&directory, 4, 8);
        self.hand_log(&log.bytes);
        self.walk_all(0, &log);
        let start = self.random.pick(&log.starts);
        self.walk_all(start, &log);
    }

    fn damaged_records(&mut self) {
        let directory = self.hand_directory();
        let mut log = self.records(&directory, 3, 4);
        for _ in 0..self.random.between(1, 2) {
            self.damage(&mut log);
        }
        self.hand_log(&log.bytes);
        self.walk_all(0, &log);
    }

    /// A record with one action that is refused, of each sort in turn; its checksum is right.
    fn faulty_actions(&mut self) {
        let directory = self.hand_directory();
        for fault in FAULTS {
            let mut log = LogBytes::default();
            log.begin(self.id());
            self.actions(&mut log, &directory, 3);
            let good = log.ends.len();
            fault(self, &mut log, &directory);
            self.actions(&mut log, &directory, 1);
            log.end();
            self.hand_log(&log.bytes);
            let more = self.random.below(2);
            self.walk(0, good + more);
        }
    }

    /// A short log cut at every byte.
    fn every_cut(&mut self) {
        let directory = self.hand_directory();
        let log = self.short_log(|generator| generator.records(&directory, 2, 3));
        for cut in 0..=log.bytes.len() {
            self.hand_log(&log.bytes[..cut]);
            let more = self.random.below(2);
            self.walk(0, log.actions_before(cut) + more);
        }
    }

    /// Every byte as the first of a record, with 0 to 12 bytes behind it.
    fn openings(&mut self) {
        self.hand_directory();
        for (tag, behind) in self.tags_with_few_bytes() {
            let start = self.random.below(3);
            self.hand_opening(start, tag, behind);
            for validate in [Validate::Always, Validate::Never] {
                self.step_at(start as u64, validate);
            }
        }
    }

    /// The same inside a record.
    fn insides(&mut self) {
        let directory = self.hand_directory();
        for (tag, behind) in self.tags_with_few_bytes() {
            let mut log = LogBytes::default();
            log.begin(self.id());
            let fields = self.key_fields(&directory, tag, behind);
            log.put(&[&[tag], &fields]);
            self.hand_log(&log.bytes);
            let more = self.random.below(2);
            self.walk(0, 1 + more);
        }
    }

    /// Steps at every kind of place in a log, and beyond it.
    fn positions(&mut self) {
        let directory = self.hand_directory();
        let log = self.records(&directory, 2, 3);
        self.hand_log(&log.bytes);
        let end = log.bytes.len() as u64;
        let mut positions = vec![0, end, end + 1, end + (1 << 32), 1 << 63, u64::MAX];
        positions.extend(log.ends.iter().map(|end| *end as u64));
        positions.extend((0..8).map(|_| self.random.below(log.bytes.len()) as u64));
        for position in positions {
            let steps = self.random.below(3);
            self.walk(position, steps);
        }
    }

    /// Every rule of a directory broken in turn, then the cursor goes on under a whole one.
    fn broken_directories(&mut self) {
        let good = self.directory();
        let log = self.records(&good, 2, 2);
        self.hand_log(&log.bytes);
        let end = log.bytes.len() as u64;
        for broken in BREAKS {
            self.hand_broken_directory(broken);
            let position = self.random.pick(&[0, 0, end, end + 1, u64::MAX]);
            self.walk(position, 1);
            self.script.push(good.command());
            self.steps(2, Validate::Always);
        }
    }

    /// Another log or directory is handed over inside a record: the cursor goes on with what is
    /// there now. Then the first ones come back.
    fn changes_under_a_cursor(&mut self) {
        let directory = self.hand_directory();
        let log = self.records(&directory, 2, 4);
        self.hand_log(&log.bytes);
        let before = self.random.below(log.ends.len());
        let validate = self.walk(0, before);
        match self.random.below(4) {
            0 => {
                let cut = self.random.below(log.bytes.len());
                self.hand_log(&log.bytes[..cut]);
            }
            1 => {
                let other = self.records(&directory, 2, 4);
                self.hand_log(&other.bytes);
            }
            2 => {
                let broken = self.random.pick(&BREAKS);
                self.hand_broken_directory(broken);
            }
            _ => {
                self.hand_directory();
            }
        }
        self.steps(1, validate);
        self.script.push(directory.command());
        self.hand_log(&log.bytes);
        self.steps(log.ends.len() - before, validate);
    }

    /// The running checksum covers only what is read while validating.
    fn validation_switched(&mut self) {
        let directory = self.hand_directory();
        let log = self.records(&directory, 1, 4);
        self.hand_log(&log.bytes);
        let switch = self.random.between(1, log.ends.len() - 1);
        for (first, then) in
            [(Validate::Always, Validate::Never), (Validate::Never, Validate::Always)]
        {
            self.step_at(0, first);
            self.steps(switch - 1, first);
            self.steps(log.ends.len() - switch, then);
            self.steps(1, first);
        }
    }

    /// A wrong checksum leaves the cursor, the running checksum too: the right one is accepted.
    fn checksum_mended(&mut self) {
        let directory = self.hand_directory();
        let log = self.records(&directory, 1, 3);
        let mut wrong = log.bytes.clone();
        *wrong.last_mut().expect("a record") ^= 1 << self.random.below(8);
        self.hand_log(&wrong);
        self.step_at(0, Validate::Always);
        self.steps(log.ends.len() - 1, Validate::Always);
        self.hand_log(&log.bytes);
        self.steps(2, Validate::Always);
    }

    fn noise(&mut self) {
        let directory = self.hand_directory();
        let log = self.noise_log(&directory);
        self.hand_log(&log.bytes);
        let position = self.random.pick(&[0, 0, 1, log.bytes.len() / 2]);
        self.walk(position as u64, log.ends.len() + 2);
    }

    fn long_records(&mut self) {
        let directory = self.hand_directory();
        if let Some(log) = self.long_record(&directory) {
            self.hand_log(&log.bytes);
            self.walk_all(0, &log);
        }
    }

    fn checksums(&mut self) {
        let most = match self.random.below(100) {
            0 if !self.small => LONGEST_LOG,
            0..=20 => 2_000,
            _ => 80,
        };
        let length = self.random.between(0, most);
        let blob = self.random.bytes(length);
        self.script.push(with_blob(op::CRC, &blob));
    }

    /// Every tag with every small number of bytes behind it. A short script has few unknown tags.
    fn tags_with_few_bytes(&self) -> Vec<(u8, usize)> {
        if self.small {
            return known_tags_with_few_bytes();
        }
        with_few_bytes(0..=255)
    }
}

/// The commands.
impl Generator {
    /// From a position through all actions behind it, and a step or two more.
    fn walk_all(&mut self, start: usize, log: &LogBytes) {
        let actions = log.ends.len() - log.actions_before(start);
        let more = self.random.below(2);
        self.walk(start as u64, actions + more);
    }

    /// A new cursor, and so many steps behind its first.
    fn walk(&mut self, position: u64, steps: usize) -> Validate {
        let always = Validate::Always;
        let validate = self.random.pick(&[always, always, Validate::Never, Validate::Mixed]);
        self.step_at(position, validate);
        self.steps(steps, validate);
        validate
    }

    fn step_at(&mut self, position: u64, validate: Validate) {
        let validate = self.validate_now(validate);
        self.script.push([&[op::STEP_AT], &position.to_le_bytes()[..], &[validate]].concat());
    }

    fn steps(&mut self, steps: usize, validate: Validate) {
        for _ in 0..steps {
            let validate = self.validate_now(validate);
            self.script.push(vec![op::STEP, validate]);
        }
    }

    fn validate_now(&mut self, validate: Validate) -> u8 {
        match validate {
            Validate::Always => 1,
            Validate::Never => 0,
            Validate::Mixed => self.random.below(2) as u8,
        }
    }
}

//! The forms for REPLAY and RUN. An image is handed over before each chain of them and looked at
//! behind it.

use super::{
    directories::{crowded_directory, directory_for_image, BREAKS},
    log_bytes::LogBytes,
    records::{known_tags_with_few_bytes, FAULTS},
    Form, Generator,
};
use crate::{
    directory::Directory,
    protocol::{image, op, replaying, Fields, LONGEST_IMAGE},
};

pub const FORMS: [Form; 12] = [
    Generator::whole_runs,
    Generator::crowded_runs,
    Generator::damaged_runs,
    Generator::faulty_runs,
    Generator::every_cut_of_a_run,
    Generator::replayed_openings,
    Generator::replayed_insides,
    Generator::other_ids,
    Generator::last_ids,
    Generator::replay_positions,
    Generator::unfit_images_and_directories,
    Generator::long_runs,
];

impl Generator {
    /// Many records at once, then from behind the front, then one by one.
    fn whole_runs(&mut self) {
        let directory = self.hand_directory_for_image();
        let first = self.id();
        let (few, many) = (self.random.between(1, 12), self.random.between(50, 200));
        let (count, most_actions) = self.random.pick(&[(few, 4), (few, 4), (few, 4), (many, 0)]);
        let log = self.run_of_records(&directory, first, count, most_actions);
        self.hand_log(&log.bytes);
        self.run_on_image(&directory, 0, first);
        let place = self.random.below(count);
        self.run_on_image(&directory, log.starts[place], first.wrapping_add(place as u64));
        self.replay_one_by_one(&directory, &log, first);
    }

    /// Keys that repeat, drops before and behind what they drop.
    fn crowded_runs(&mut self) {
        let directory = crowded_directory(&mut self.random);
        self.script.push(directory.command());
        let first = self.id();
        let log = self.run_of_records(&directory, first, 2, 20);
        self.hand_log(&log.bytes);
        self.run_on_image(&directory, 0, first);
        self.replay_one_by_one(&directory, &log, first);
    }

    fn damaged_runs(&mut self) {
        let directory = self.hand_directory_for_image();
        let first = self.id();
        let count = self.random.between(1, 6);
        let mut log = self.run_of_records(&directory, first, count, 4);
        for _ in 0..self.random.between(1, 2) {
            self.damage(&mut log);
        }
        self.hand_log(&log.bytes);
        self.run_on_image(&directory, 0, first);
    }

    /// An action that is refused, of each sort in turn, in a record whose checksum is right; some
    /// records stand before it, one behind it. Then the log ends somewhere behind that action's tag.
    fn faulty_runs(&mut self) {
        let directory = self.hand_directory_for_image();
        for fault in FAULTS {
            let first = self.id();
            let good = self.random.below(3);
            let mut log = self.run_of_records(&directory, first, good, 3);
            let faulty = log.bytes.len();
            let id = first.wrapping_add(good as u64);
            log.begin(id);
            self.actions(&mut log, &directory, 3);
            let fault_at = log.bytes.len();
            fault(self, &mut log, &directory);
            self.actions(&mut log, &directory, 1);
            log.end();
            self.record(&mut log, id.wrapping_add(1), &directory, 1);
            self.hand_log(&log.bytes);
            self.run_on_image(&directory, 0, first);
            self.replay_on_image(&directory, faulty, id);
            self.replay_on_image(&directory, faulty, id.wrapping_add(1));
            let cut = self.random.between(fault_at, log.bytes.len());
            self.hand_log(&log.bytes[..cut]);
            self.run_on_image(&directory, 0, first);
        }
    }

    fn every_cut_of_a_run(&mut self) {
        let directory = self.hand_directory_for_image();
        let first = self.id();
        let count = self.random.between(1, 3);
        let log = self.short_log(|generator| generator.run_of_records(&directory, first, count, 2));
        for cut in 0..=log.bytes.len() {
            self.hand_log(&log.bytes[..cut]);
            self.run_on_image(&directory, 0, first);
        }
    }

    /// Tags with few bytes behind them where a record should begin.
    fn replayed_openings(&mut self) {
        let directory = self.hand_directory_for_image();
        for (tag, behind) in known_tags_with_few_bytes() {
            let start = self.random.below(3);
            self.hand_opening(start, tag, behind);
            let expected = self.id();
            self.replay_on_image(&directory, start, expected);
        }
    }

    /// The same inside a record.
    fn replayed_insides(&mut self) {
        let directory = self.hand_directory_for_image();
        for (tag, behind) in known_tags_with_few_bytes() {
            let id = self.id();
            let mut log = LogBytes::default();
            log.begin(id);
            self.actions(&mut log, &directory, 1);
            let fields = self.key_fields(&directory, tag, behind);
            log.put(&[&[tag], &fields]);
            self.hand_log(&log.bytes);
            self.replay_on_image(&directory, 0, id);
        }
    }

    /// Ids that aren't expected: left out, repeated, or others altogether. Whatever else is wrong
    /// with such a record comes after its id.
    fn other_ids(&mut self) {
        let directory = self.hand_directory_for_image();
        let first = self.random.number() >> self.random.below(64);
        let mut log = self.run_of_records(&directory, first, 2, 2);
        let last = first.wrapping_add(1);
        let any = self.random.number();
        let other = self.random.pick(&[last, last.wrapping_add(2), first, 0, 1 << 32, any]);
        self.record(&mut log, other, &directory, 2);
        if self.random.one_in(2) {
            self.damage_near_the_end(&mut log, 20);
        }
        self.hand_log(&log.bytes);
        self.run_on_image(&directory, 0, first);
        for expected in [first ^ 1, first.wrapping_add(1 << 32), first ^ 1 << 63, last] {
            self.run_on_image(&directory, 0, expected);
            self.replay_on_image(&directory, log.starts[1], expected);
        }
    }

    /// Behind id 2^64-1 the run is over, whether there is more or not.
    fn last_ids(&mut self) {
        let directory = self.hand_directory_for_image();
        let before = self.random.below(3);
        let behind = self.random.below(3);
        let first = u64::MAX - before as u64;
        let mut log = self.run_of_records(&directory, first, before + 1 + behind, 2);
        if self.random.one_in(3) {
            self.record(&mut log, u64::MAX, &directory, 1);
        }
        let noise = self.random.below(4);
        log.bytes.extend(self.random.bytes(noise));
        self.hand_log(&log.bytes);
        self.run_on_image(&directory, 0, first);
        self.replay_one_by_one(&directory, &log, first);
        self.run_on_image(&directory, log.starts[before], u64::MAX);
    }

    /// In, at and beyond the end of a log.
    fn replay_positions(&mut self) {
        let directory = self.hand_directory_for_image();
        let log = self.run_of_records(&directory, 7, 2, 2);
        self.hand_log(&log.bytes);
        let end = log.bytes.len() as u64;
        let mut positions = vec![0, end, end + 1, end + (1 << 32), 1 << 63, u64::MAX];
        positions.extend((0..8).map(|_| self.random.below(log.bytes.len()) as u64));
        self.hand_image(&directory);
        for position in positions {
            self.call(op::REPLAY, position, 7);
            self.call(op::RUN, position, 7);
        }
        self.script.push(vec![op::IMAGE_SUM]);
    }

    /// 13, before anything is looked at in the log; then the same log under a state that fits.
    fn unfit_images_and_directories(&mut self) {
        let directory = self.hand_directory_for_image();
        let log = self.run_of_records(&directory, 1, 2, 2);
        self.hand_log(&log.bytes);
        let end = log.bytes.len() as u64;
        let right = directory.image_length();
        for length in [right.wrapping_sub(1), right + 1, right + 512, right / 2, 0] {
            if length == right || length > LONGEST_IMAGE {
                continue;
            }
            self.hand_image_of(length);
            self.call_at_any_position(end);
        }
        for broken in BREAKS {
            let mut other = directory.clone();
            broken(&mut self.random, &mut other);
            self.script.push(other.command());
            self.hand_image_of(other.image_length().min(LONGEST_IMAGE));
            self.call_at_any_position(end);
        }
        self.script.push(directory.command());
        self.run_on_image(&directory, 0, 1);
    }

    fn call_at_any_position(&mut self, end: u64) {
        let position = self.random.pick(&[0, 0, end, end + 1, u64::MAX]);
        let opcode = self.random.pick(&[op::REPLAY, op::RUN]);
        self.call(opcode, position, 1);
        self.script.push(vec![op::IMAGE_SUM]);
    }

    /// Records of more than 65,536 bytes, whole, from any byte on, then damaged near the end.
    fn long_runs(&mut self) {
        let directory = self.hand_directory_for_image();
        let Some(mut log) = self.long_record(&directory) else { return };
        let first = Fields(&log.bytes[1..]).u64();
        self.record(&mut log, first.wrapping_add(1), &directory, 2);
        self.hand_log(&log.bytes);
        self.run_on_image(&directory, 0, first);
        for _ in 0..20 {
            let position = self.random.between(65_000, log.bytes.len());
            self.replay_on_image(&directory, position, first);
        }
        self.damage_near_the_end(&mut log, 60);
        self.hand_log(&log.bytes);
        self.run_on_image(&directory, 0, first);
    }
}

/// The commands.
impl Generator {
    fn hand_directory_for_image(&mut self) -> Directory {
        let large = !self.small && self.random.one_in(30);
        let most_bytes = if large { LONGEST_IMAGE } else { 20_000 };
        let directory = directory_for_image(&mut self.random, most_bytes);
        self.script.push(directory.command());
        directory
    }

    fn hand_image(&mut self, directory: &Directory) {
        self.hand_image_of(directory.image_length());
    }

    fn hand_image_of(&mut self, length: usize) {
        let fill = self.random.number() as u8;
        self.script.push(image(length, fill));
    }

    fn call(&mut self, opcode: u8, position: u64, expected: u64) {
        self.script.push(replaying(opcode, position, expected));
    }

    pub fn run_on_image(&mut self, directory: &Directory, position: usize, expected: u64) {
        self.call_on_image(op::RUN, directory, position, expected);
    }

    pub fn replay_on_image(&mut self, directory: &Directory, position: usize, expected: u64) {
        self.call_on_image(op::REPLAY, directory, position, expected);
    }

    fn call_on_image(&mut self, opcode: u8, directory: &Directory, position: usize, expected: u64) {
        self.hand_image(directory);
        self.call(opcode, position as u64, expected);
        self.script.push(vec![op::IMAGE_SUM]);
    }

    /// All records of a log onto one image, then what stands behind them.
    fn replay_one_by_one(&mut self, directory: &Directory, log: &LogBytes, first: u64) {
        self.hand_image(directory);
        let ends = log.ends.last().copied();
        for (place, start) in log.starts.iter().copied().chain(ends).enumerate() {
            self.call(op::REPLAY, start as u64, first.wrapping_add(place as u64));
            self.script.push(vec![op::IMAGE_SUM]);
        }
    }
}

//! The forms for SALVAGE.

use super::{directories::BREAKS, log_bytes::LogBytes, records::FAULTS, Form, Generator};
use crate::{
    directory::{Directory, Kind},
    protocol::{op, LONGEST_LOG},
};

pub const FORMS: [Form; 8] = [
    Generator::whole_logs,
    Generator::damaged_logs,
    Generator::faulty_logs,
    Generator::each_byte_of_ten_records,
    Generator::each_cut_of_a_log,
    Generator::many_lines,
    Generator::records_in_values,
    Generator::salvage_under_broken_directories,
];

impl Generator {
    /// Records of any ids one behind the other, and nothing at all.
    fn whole_logs(&mut self) {
        let directory = self.hand_directory();
        let log = match self.random.below(8) {
            0 => LogBytes::default(),
            1 if !self.small => self.long_record(&directory).unwrap_or_default(),
            _ => self.records(&directory, 12, 4),
        };
        self.hand_log(&log.bytes);
        self.salvage_into_all_lengths(log.bytes.len());
    }

    fn damaged_logs(&mut self) {
        let directory = self.hand_directory();
        let mut log = self.records(&directory, 10, 3);
        for _ in 0..self.random.between(1, 6) {
            self.damage(&mut log);
        }
        if self.random.one_in(3) {
            let noise = self.random.between(1, 40);
            let place = self.random.between(0, log.bytes.len());
            let noise = self.random.bytes(noise);
            log.bytes.splice(place..place, noise);
        }
        self.hand_log(&log.bytes);
        self.salvage_into_all_lengths(log.bytes.len());
    }

    /// A record with a fault and a right checksum, between good ones.
    fn faulty_logs(&mut self) {
        let directory = self.hand_directory();
        for fault in FAULTS {
            let mut log = self.records(&directory, 2, 2);
            log.begin(self.id());
            self.actions(&mut log, &directory, 2);
            fault(self, &mut log, &directory);
            log.end();
            let id = self.id();
            self.record(&mut log, id, &directory, 2);
            self.hand_log(&log.bytes);
            self.salvage_into(log.bytes.len());
        }
    }

    /// Each byte of a log of ten records changed, one at a time.
    fn each_byte_of_ten_records(&mut self) {
        let directory = self.hand_directory();
        let mut log = LogBytes::default();
        for id in 1..=10 {
            let before = log.bytes.len();
            self.record(&mut log, id, &directory, 1);
            if log.bytes.len() - before > 60 {
                log.bytes.truncate(before);
                log.starts.pop();
                self.record(&mut log, id, &Directory::default(), 0);
            }
        }
        let every = if self.small { 20 } else { 1 };
        for place in (0..log.bytes.len()).step_by(every) {
            let mut bytes = log.bytes.clone();
            bytes[place] ^= 1 << self.random.below(8);
            self.hand_log(&bytes);
            self.salvage_into(bytes.len());
        }
    }

    fn each_cut_of_a_log(&mut self) {
        let directory = self.hand_directory();
        let log = self.short_log(|generator| generator.records(&directory, 3, 2));
        for cut in 0..=log.bytes.len() {
            self.hand_log(&log.bytes[..cut]);
            self.salvage_into(cut);
        }
    }

    /// 63 to 66 lines, a stretch before each record or behind it, with room for the output and without.
    fn many_lines(&mut self) {
        self.hand_directory();
        for (records, first_lost, last_lost) in [
            (31, true, true),
            (32, false, true),
            (32, true, false),
            (32, true, true),
            (33, false, true),
        ] {
            let mut log = LogBytes::default();
            for place in 0..records {
                if place > 0 || first_lost {
                    self.lose_some(&mut log);
                }
                log.begin(self.id());
                log.end();
            }
            if last_lost {
                self.lose_some(&mut log);
            }
            self.hand_log(&log.bytes);
            self.salvage_into(14 * records);
            self.salvage_into(14 * records - 1);
        }
        let mut log = LogBytes::default();
        let records = self.random.between(60, 70);
        for _ in 0..records {
            log.begin(self.id());
            log.end();
        }
        self.hand_log(&log.bytes);
        self.salvage_into_all_lengths(log.bytes.len());
    }

    /// Bytes that begin no record.
    fn lose_some(&mut self, log: &mut LogBytes) {
        for _ in 0..self.random.between(1, 3) {
            let byte = self.random.pick(&[0, 2, 3, 4, 5, 8, 255]);
            log.bytes.push(byte);
        }
    }

    /// Values that hold the bytes of records, in records that are whole and in one that is damaged.
    fn records_in_values(&mut self) {
        let directory = self.hand_directory();
        let lengths = |table: &&crate::directory::Table| {
            table.kind == Kind::Value && (14..=512).contains(&table.length)
        };
        let Some(table) = directory.tables.iter().find(lengths) else { return };
        let mut log = LogBytes::default();
        for _ in 0..3 {
            let mut inner = LogBytes::default();
            inner.begin(self.id());
            inner.end();
            let behind = table.length as usize - inner.bytes.len();
            inner.bytes.extend(self.random.bytes(behind));
            log.begin(self.id());
            let index = self.index_below(table.count);
            log.keyed(3, table.number, index, &inner.bytes);
            log.end();
            if self.random.one_in(2) {
                *log.bytes.last_mut().expect("a record") ^= 1;
            }
        }
        self.hand_log(&log.bytes);
        self.salvage_into_all_lengths(log.bytes.len());
    }

    /// 13, before anything is looked at.
    fn salvage_under_broken_directories(&mut self) {
        let directory = self.directory();
        let log = self.records(&directory, 80, 1);
        self.hand_log(&log.bytes);
        for broken in BREAKS {
            self.hand_broken_directory(broken);
            let length = self.random.pick(&[0, log.bytes.len()]);
            self.salvage_into(length);
        }
    }
}

/// The commands.
impl Generator {
    fn salvage_into_all_lengths(&mut self, log_length: usize) {
        let any = self.random.between(0, log_length);
        for length in [log_length, any, 0, log_length + 7] {
            self.salvage_into(length.min(LONGEST_LOG));
        }
    }

    fn salvage_into(&mut self, output_length: usize) {
        self.script.push([&[op::SALVAGE], &(output_length as u32).to_le_bytes()[..]].concat());
    }
}

//! Records cleared from overlays whose entries have all sorts of ids.

use crate::{
    directory::Directory,
    generator::{
        directories::BREAKS,
        log_bytes::LogBytes,
        records::{known_tags_with_few_bytes, FAULTS},
        Generator,
    },
};

/// The ids of the records, and more often than not of the entries.
const IDS: [u64; 3] = [3, 4, 5];

impl Generator {
    /// Records with few ids, in any order and again, until little is left.
    pub fn clearings(&mut self) {
        let directory = self.start_small_life();
        self.forge_all_places(&directory);
        for _ in 0..if self.small { 3 } else { 10 } {
            let mut log = LogBytes::default();
            for _ in 0..self.random.between(1, 3) {
                let id = self.random.pick(&IDS);
                self.record(&mut log, id, &directory, 8);
            }
            let next = self.random.pick(&[1, 3, 4, 5, 6, u64::MAX]);
            self.forge_next_id(next);
            self.hand_log(&log.bytes);
            for _ in 0..self.random.between(1, 3) {
                let start = self.random.pick(&log.starts);
                self.clear_at(start as u64);
            }
        }
        self.look_up_all(&directory);
    }

    /// An entry at most of the places.
    fn forge_all_places(&mut self, directory: &Directory) {
        for table in &directory.tables {
            for index in 0..table.count.into() {
                let any = self.random.number().clamp(1, u64::MAX - 1);
                let id = self.random.pick(&[IDS[0], IDS[1], IDS[2], IDS[0], IDS[1], any]);
                let mask = self.a_mask();
                if !self.random.one_in(8) {
                    let bytes = table.place_bytes();
                    self.forge_shared(table.kind, table.number, index, id, mask, bytes);
                }
            }
        }
    }

    /// Records that replay refuses, of each sort, and positions of all kinds: nothing is cleared.
    pub fn faulty_clearings(&mut self) {
        let directory = self.start_small_life();
        self.forge_all_places(&directory);
        for fault in FAULTS {
            let mut log = LogBytes::default();
            let id = self.random.pick(&[IDS[0], IDS[1], u64::MAX]);
            log.begin(id);
            self.actions(&mut log, &directory, 3);
            let fault_at = log.bytes.len();
            fault(self, &mut log, &directory);
            log.end();
            self.hand_log(&log.bytes);
            self.clear_at(0);
            let cut = self.random.between(fault_at, log.bytes.len());
            self.hand_log(&log.bytes[..cut]);
            self.clear_at(0);
        }
        for _ in 0..if self.small { 3 } else { 12 } {
            let id = self.random.pick(&[IDS[0], IDS[1], u64::MAX]);
            let mut log = self.run_of_records(&directory, id, 1, 4);
            self.damage(&mut log);
            self.hand_log(&log.bytes);
            self.clear_at(0);
        }
        self.clear_at_openings();
        self.clear_at_any_position(&directory);
        for broken in BREAKS {
            let mut other = directory.clone();
            broken(&mut self.random, &mut other);
            self.script.push(other.command());
            let position = self.random.pick(&[0, u64::MAX]);
            self.clear_at(position);
        }
        self.script.push(directory.command());
        self.clear_at(0);
    }

    fn clear_at_openings(&mut self) {
        for (tag, behind) in known_tags_with_few_bytes() {
            if self.random.one_in(8) {
                let start = self.random.below(3);
                self.hand_opening(start, tag, behind);
                self.clear_at(start as u64);
            }
        }
    }

    fn clear_at_any_position(&mut self, directory: &Directory) {
        let log = self.run_of_records(directory, IDS[0], 2, 4);
        self.hand_log(&log.bytes);
        let end = log.bytes.len() as u64;
        let inside = self.random.below(log.bytes.len()) as u64;
        for position in [end, end + 1, inside, end + (1 << 32), u64::MAX, 0] {
            self.clear_at(position);
        }
    }
}

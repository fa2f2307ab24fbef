//! Ends of records that are refused, at the end of all ids, and under another directory.

use super::{full::Keys, host::Ended};
use crate::{
    directory::Kind,
    generator::{queues::Queues, Generator},
    protocol::LONGEST_OUTPUT,
};

impl Generator {
    /// Each ground for a refusal beside each other: which number comes first.
    pub fn refused_ends(&mut self) {
        let directory = self.start_life(300, 400);
        let keys = Keys::of(&directory, Kind::Value);
        (0..256).for_each(|place| self.forge_key(&keys, place));
        for grounds in 0..64 {
            if self.small && !self.random.one_in(4) {
                continue;
            }
            let [new_key, mask_0, stale, no_file, used_up, short] =
                [0, 1, 2, 3, 4, 5].map(|bit| grounds >> bit & 1 == 1);
            let id = self.random.between(5, 1_000) as u64;
            self.hand_list_of(id);
            let listed = self.random.below(256);
            let (table, index) = keys.key(if new_key { 256 } else { listed });
            self.forge_entry(Kind::Value, table.number, index, 0, table.place_bytes());
            if mask_0 {
                let table = self.table_of(&directory, Kind::Index);
                self.forge_entry(Kind::Index, table.number, 0, 0, table.place_bytes());
            }
            let other = self.random.pick(&[id, id + 2, 1]);
            self.forge_next_id(if stale { other } else { id + 1 });
            let queues = self.queues_for_an_end(no_file, used_up);
            self.script.push(queues.command());
            let record = 9 + 11 + table.place_bytes() + 5;
            let length = self.random.pick(&[record, record + 1, LONGEST_OUTPUT]);
            let too_short = self.random.pick(&[0, record - 1]);
            self.end_into(if short { too_short } else { length });
        }
    }

    /// Queues in which a new file is due and there are 64, or numbers or the file's size are used
    /// up, or neither.
    fn queues_for_an_end(&mut self, no_file: bool, used_up: bool) -> Queues {
        let next = if used_up { u32::MAX } else { u32::MAX - 1 };
        if no_file {
            return Queues { cleanup: (0..64).collect(), next, ..Queues::default() };
        }
        let mut queues = Queues { read_queue: vec![7, 3], next: 8, ..Queues::default() };
        match self.random.below(3) {
            0 => queues.next = next,
            _ if used_up => {
                queues.appending = Some(5);
                queues.size = self.random.pick(&[(1 << 63) - 1, (1 << 63) - 14]);
            }
            1 => queues.appending = Some(5),
            _ => queues.pool = vec![2, 4],
        }
        queues
    }

    /// Up to id 2^64-2, the last that is handed out.
    pub fn last_records(&mut self) {
        let directory = self.start_small_life();
        let left = self.random.below(4) as u64;
        self.forge_next_id(u64::MAX - left);
        for _ in 0..left + 2 {
            self.begin();
            self.some_changes(&directory, 2);
            self.look_at_list();
            self.end_into(LONGEST_OUTPUT);
        }
        let noise = self.random.below(3);
        for id in [u64::MAX - 1, u64::MAX, 1, u64::MAX - 2] {
            let next = self.random.pick(&[1, u64::MAX - 1, u64::MAX]);
            self.forge_next_id(next);
            let mut log = self.run_of_records(&directory, id, 1, 2);
            log.bytes.extend(self.random.bytes(noise));
            if self.random.one_in(4) {
                self.damage_near_the_end(&mut log, 8);
            }
            self.hand_log(&log.bytes);
            self.clear_at(0);
        }
        self.begin();
    }

    /// Lists ended and records cleared under a directory that isn't the one they were made for. The
    /// keys of the overlays need not fit it.
    pub fn other_directories(&mut self) {
        let old = self.start_small_life();
        for _ in 0..6 {
            self.begin();
            self.some_changes(&old, 4);
            self.end_into(LONGEST_OUTPUT);
            let mut other = old.clone();
            for _ in 0..self.random.between(1, 2) {
                self.change_a_table(&mut other);
            }
            self.script.push(other.command());
            self.end_into(LONGEST_OUTPUT);
            self.begin();
            self.some_changes(&other, 4);
            self.end_into(LONGEST_OUTPUT);
            let answer = self.last_answer();
            if let Some(ended) = Ended::told_by(&answer) {
                self.hand_log(ended.record);
                self.script.push(old.command());
                self.clear_at(0);
                self.script.push(other.command());
                self.clear_at(0);
            }
            self.script.push(old.command());
        }
        self.look_at_last_ids();
    }
}

//! 01: records begun, ended and cleared, and their ids.

use super::{directory, overlays::Shared, put, replay::Record, Fault, Model, Take};

impl Model {
    /// The commands 11 to 13 and 20.
    pub fn answer_of_records(&mut self, command: u8, take: &mut Take) -> Vec<u8> {
        match command {
            0x11 => self.begin(),
            0x12 => self.end(take.number(4) as usize),
            0x13 => self.clear(take.number(8)),
            _ => {
                self.overlays.next_id = take.number(8);
                vec![0]
            }
        }
    }

    fn begin(&mut self) -> Vec<u8> {
        let id = self.overlays.next_id;
        if id == u64::MAX && !self.has(Fault::BeginsTheLastId) {
            return vec![12];
        }
        self.list = super::List::new(id);
        self.overlays.next_id = id.wrapping_add(1);
        let mut answer = vec![0];
        put(&mut answer, id, 8);
        answer
    }

    fn end(&mut self, length: usize) -> Vec<u8> {
        let record = self.record();
        let refused = self.refusal_of_end(record.len(), length);
        let mut answer = vec![refused.unwrap_or(0)];
        let (written, source, file) = match refused {
            Some(_) => (0, 0, 0),
            None => {
                let (source, file) = self.take_file();
                self.queues.size += record.len() as u64;
                self.queues.dirty = true;
                self.put_over();
                (record.len() as u64, source, file)
            }
        };
        put(&mut answer, written, 4);
        put(&mut answer, source, 1);
        put(&mut answer, file, 4);
        self.put_written(&mut answer, &record, length);
        if refused.is_none() && self.has(Fault::EndTakesTheList) {
            self.list = super::List::new(self.list.id);
        }
        answer
    }

    /// 13, 11, 9, 9, 12, 10; faults change the order.
    fn refusal_of_end(&self, record: usize, length: usize) -> Option<u8> {
        let queues = &self.queues;
        let kept = self.list_and_directory_keep_the_rules()
            && self.overlays_keep_the_rules()
            && queues.keep_the_rules();
        let needs_new = queues.appending.is_none() && queues.pool.is_empty();
        let too_large = queues.size + record as u64 >= 1 << 63 && !self.has(Fault::SizeUntested);
        let stale = self.list.id.checked_add(1) != Some(self.overlays.next_id);
        let mut grounds = vec![
            (stale, 11),
            (!self.overlays_have_room(), 9),
            (needs_new && queues.numbers().len() == 64, 9),
            (needs_new && queues.next == u64::from(u32::MAX) || too_large, 12),
            (record > length, 10),
        ];
        if self.has(Fault::StaleBehindRoom) {
            grounds.swap(0, 1);
        }
        if self.has(Fault::NumbersBeforeOverlays) {
            grounds.swap(1, 3);
        }
        if self.has(Fault::ShortBeforeFiles) {
            grounds.swap(2, 4);
        }
        grounds.insert(0, (!kept, 13));
        grounds.into_iter().find(|(holds, _)| *holds).map(|(_, number)| number)
    }

    fn overlays_have_room(&self) -> bool {
        (0..3).all(|kind| {
            let shared = &self.overlays.entries[kind];
            let is_shared = |key| shared.iter().any(|shared| shared.entry.key() == key);
            let twice = self.has(Fault::KeyInBothCountsTwice);
            let listed = self.list.entries[kind].iter();
            let new = listed.filter(|entry| twice || !is_shared(entry.key()));
            shared.len() + new.count() <= 256
        })
    }

    /// Where the file comes from, and its number.
    fn take_file(&mut self) -> (u64, u64) {
        let from_the_top = self.has(Fault::PoolFromTheTop);
        let queues = &mut self.queues;
        let (source, file) = match queues.appending {
            Some(file) => return (0, file),
            None if queues.pool.is_empty() => {
                queues.next += 1;
                (2, queues.next - 1)
            }
            None => {
                let place = if from_the_top { queues.pool.len() - 1 } else { 0 };
                (1, queues.pool.remove(place))
            }
        };
        queues.appending = Some(file);
        queues.size = 0;
        (source, file)
    }

    /// Each entry over the shared one.
    fn put_over(&mut self) {
        let id = self.list.id;
        for kind in 0..3 {
            for mut entry in self.list.entries[kind].clone() {
                let sets = kind == 1 || kind == 0 && self.has(Fault::IndexSetsLastId);
                if let Some((_, table)) = directory::find(&self.directory, kind as u8, entry.table)
                {
                    if sets {
                        self.overlays.last_ids[table.column as usize] = id;
                    }
                }
                let joins = self.has(Fault::JoinsSharedMasks);
                let shared = &mut self.overlays.entries[kind];
                if let Some(place) = shared.iter().position(|old| old.entry.key() == entry.key()) {
                    let old = shared.remove(place);
                    if joins {
                        entry.mask |= old.entry.mask;
                    }
                }
                shared.push(Shared { id, entry });
            }
        }
    }

    fn clear(&mut self, position: u64) -> Vec<u8> {
        let mut record = Record::default();
        record.fault_at = position;
        let read = match self.overlays_keep_the_rules() {
            true => self.read_record(position, None, &mut record),
            false => Err(13),
        };
        let cleared = read.and_then(|()| match record.id {
            u64::MAX if !self.has(Fault::ClearsTheLastId) => Err(12),
            _ => Ok(()),
        });
        if cleared.is_ok() || cleared == Err(8) && self.has(Fault::ClearsUnchecked) {
            self.clear_keys(&record);
        }
        let mut answer = vec![cleared.err().unwrap_or(0)];
        self.tell_fault(answer[0], if answer[0] == 12 { record.behind } else { record.fault_at });
        put(&mut answer, if cleared.is_ok() { record.behind } else { position }, 8);
        put(&mut answer, if cleared.is_ok() { record.id } else { 0 }, 8);
        answer
    }

    fn clear_keys(&mut self, record: &Record) {
        let (any_id, mask_0_stays) =
            (self.has(Fault::ClearsAnyId), self.has(Fault::ClearingForgetsMask0));
        let next = record.id.wrapping_add(1);
        if record.id >= self.overlays.next_id || self.has(Fault::ClearingSetsTheNextId) {
            self.overlays.next_id = next;
        }
        for (kind, table, index, mask_is_0) in &record.keys {
            if *mask_is_0 && mask_0_stays {
                continue;
            }
            self.overlays.entries[*kind].retain(|shared| {
                shared.entry.key() != (*table, *index) || shared.id != record.id && !any_id
            });
        }
        if self.has(Fault::DropsClear) {
            for (kind, table) in &record.drops {
                self.overlays.entries[*kind].retain(|shared| shared.entry.table != *table);
            }
        }
    }
}

//! 01, "Record bytes": the writer's order, and a record in its output.

use super::{checksum, lists::Entry, put, Fault, Model};

impl Model {
    /// The list's record.
    pub fn record(&self) -> Vec<u8> {
        let mut record = vec![1];
        record.extend(self.list.id.to_le_bytes());
        let mut counts = Vec::new();
        for kind in 0..3 {
            let behind = kind == 2 && self.has(Fault::CountsBehindDrops);
            let bytes = if behind { &mut counts } else { &mut record };
            self.in_order(kind).into_iter().for_each(|entry| put_entry(bytes, kind, entry));
        }
        for (kind, tag) in [(0, 5), (2, 7)] {
            for table in &self.list.drops[kind] {
                record.push(tag);
                record.extend(&table.to_le_bytes()[..2]);
            }
        }
        record.extend(counts);
        record.push(4);
        record.extend(checksum(&record).to_le_bytes());
        record
    }

    fn in_order(&self, kind: usize) -> Vec<&Entry> {
        match self.has(Fault::WritesInCallOrder) {
            true => self.list.entries[kind].iter().collect(),
            false => self.list.sorted(kind),
        }
    }

    /// The command f0.
    pub fn write(&self, length: usize) -> Vec<u8> {
        let record = self.record();
        let kept = self.list_and_directory_keep_the_rules();
        let short = record.len() > length;
        let number = match (kept, short) {
            (false, true) if self.has(Fault::ShortBeforeBroken) => 10,
            (false, _) => 13,
            (true, true) => 10,
            (true, false) => 0,
        };
        let mut answer = vec![number];
        put(&mut answer, if number == 0 { record.len() as u64 } else { 0 }, 4);
        self.put_written(&mut answer, &record, length);
        answer
    }

    /// The command f2.
    pub fn size(&self) -> Vec<u8> {
        let kept = self.list_and_directory_keep_the_rules();
        let told = kept || self.has(Fault::SizeOfABrokenList);
        let mut answer = vec![if kept { 0 } else { 13 }];
        put(&mut answer, if told { self.record().len() as u64 } else { 0 }, 4);
        answer
    }

    /// What is written, and the output as a checksum; nothing if it is refused.
    pub fn put_written(&self, answer: &mut Vec<u8>, record: &[u8], length: usize) {
        let mut output = vec![0x5a; length];
        let written = if answer[0] == 0 { record } else { &[] };
        output[..written.len()].copy_from_slice(written);
        if answer[0] == 0 && self.has(Fault::ZeroesTheRest) {
            output[written.len()..].fill(0);
        }
        if answer[0] == 10 && self.has(Fault::WritesWhatFits) {
            output.copy_from_slice(&record[..length]);
        }
        put(answer, written.len() as u64, 4);
        answer.extend(written);
        answer.extend(checksum(&output).to_le_bytes());
    }
}

fn put_entry(record: &mut Vec<u8>, kind: usize, entry: &Entry) {
    record.push([2, 3, 6][kind]);
    record.extend(&entry.table.to_le_bytes()[..2]);
    record.extend(entry.index.to_le_bytes());
    if kind == 1 {
        record.extend(&entry.bytes);
        return;
    }
    record.extend(entry.mask.to_le_bytes());
    let width = entry.bytes.len() / 64;
    for slot in (0..64).filter(|slot| entry.mask >> slot & 1 == 1) {
        record.extend(&entry.bytes[slot * width..(slot + 1) * width]);
    }
}

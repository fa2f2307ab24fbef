//! The change list: a `LogChange` of log.rs, and document 01's rules for it.

use super::{
    super::{IndexTableId, LogChange, RefCountTableId, ValueTableId},
    entries::{put_entries, sorted, Entry, Overlay},
};
use crate::{
    directory::{Directory, Kind},
    protocol::put_nums,
};
use std::{fs::File, io::BufWriter};

pub const MOST_DROPS: usize = 16;

fn room_for(kind: Kind) -> usize {
    match kind {
        Kind::Index | Kind::Value => 32,
        Kind::RefCount => 16,
    }
}

pub struct List {
    change: LogChange,
    /// An entry of that kind was forged that the Rust's maps can't hold. Such a list breaks a rule,
    /// and no call shows it.
    beyond_the_rust: [bool; 3],
}

impl List {
    pub fn new(id: u64) -> List {
        List::of(LogChange::new(id))
    }

    pub fn of(change: LogChange) -> List {
        List { change, beyond_the_rust: [false; 3] }
    }

    pub fn id(&self) -> u64 {
        self.change.record_id
    }

    /// Hands the Rust's list to a call that takes it by value and gives it back.
    pub fn lend<R>(&mut self, call: impl FnOnce(LogChange) -> (LogChange, R)) -> R {
        let change = std::mem::replace(&mut self.change, LogChange::new(0));
        let (change, answer) = call(change);
        self.change = change;
        answer
    }

    fn overlays(&self, kind: Kind) -> Vec<(u16, &dyn Overlay)> {
        fn numbered<O: Overlay>(number: u16, overlay: &O) -> (u16, &dyn Overlay) {
            (number, overlay)
        }
        let LogChange { local_index, local_values, local_ref_count, .. } = &self.change;
        match kind {
            Kind::Index => local_index.iter().map(|(id, o)| numbered(id.as_u16(), o)).collect(),
            Kind::Value => local_values.iter().map(|(id, o)| numbered(id.as_u16(), o)).collect(),
            Kind::RefCount => {
                local_ref_count.iter().map(|(id, o)| numbered(id.as_u16(), o)).collect()
            }
        }
    }

    fn overlay_of(&mut self, kind: Kind, table: u16) -> &mut dyn Overlay {
        let LogChange { local_index, local_values, local_ref_count, .. } = &mut self.change;
        match kind {
            Kind::Index => local_index.entry(IndexTableId::from_u16(table)).or_default(),
            Kind::Value => local_values.entry(ValueTableId::from_u16(table)).or_default(),
            Kind::RefCount => local_ref_count.entry(RefCountTableId::from_u16(table)).or_default(),
        }
    }

    pub fn entries(&self, kind: Kind) -> Vec<Entry<'_>> {
        sorted(self.overlays(kind).into_iter())
    }

    pub fn drops(&self, kind: Kind) -> Vec<u16> {
        match kind {
            Kind::Index => self.change.dropped_tables.iter().map(|id| id.as_u16()).collect(),
            Kind::Value => Vec::new(),
            Kind::RefCount => {
                self.change.dropped_ref_count_tables.iter().map(|id| id.as_u16()).collect()
            }
        }
    }

    /// Those of its overlays, room for drops, and every key, value and drop fits the directory.
    pub fn keeps_the_rules(&self, directory: &Directory) -> bool {
        Kind::ALL.into_iter().all(|kind| {
            let (entries, drops) = (self.entries(kind), self.drops(kind));
            self.overlay_keeps_the_rules(kind)
                && drops.len() <= MOST_DROPS
                && entries.iter().all(|entry| fits(entry, kind, directory))
                && drops.iter().all(|number| directory.find(kind, *number).is_some())
        })
    }

    /// Room kept, no key twice, no mask 0: what can be said without a directory.
    pub fn overlay_keeps_the_rules(&self, kind: Kind) -> bool {
        let entries = self.entries(kind);
        !self.beyond_the_rust[kind as usize]
            && entries.len() <= room_for(kind)
            && entries.iter().all(|entry| entry.keeps_the_rules(kind))
    }

    /// A key that is listed already needs no room.
    pub fn has_room_for(&self, kind: Kind, table: u16, index: u64) -> bool {
        let entries = self.entries(kind);
        let listed = entries.iter().any(|entry| entry.key() == (table, index));
        listed || entries.len() < room_for(kind)
    }

    pub fn put(&mut self, kind: Kind, entry: &Entry) {
        let held = self.overlay_of(kind, entry.table).put(entry);
        self.beyond_the_rust[kind as usize] |= !held;
    }

    pub fn put_drop(&mut self, kind: Kind, table: u16) {
        let LogChange { dropped_tables, dropped_ref_count_tables, .. } = &mut self.change;
        match kind {
            Kind::RefCount => dropped_ref_count_tables.push(RefCountTableId::from_u16(table)),
            Kind::Index | Kind::Value => dropped_tables.push(IndexTableId::from_u16(table)),
        }
    }

    /// `flush_to_file`, and how many bytes it says to have written. It hands back all of the list
    /// but id and drops.
    pub fn flush_to_file(&mut self, file: &mut BufWriter<File>) -> u64 {
        self.lend(|change| {
            let mut kept = LogChange::new(change.record_id);
            kept.dropped_tables = change.dropped_tables.clone();
            kept.dropped_ref_count_tables = change.dropped_ref_count_tables.clone();
            let flushed = change.flush_to_file(file).expect("writing the record");
            kept.local_index = flushed.index;
            kept.local_values = flushed.values;
            kept.local_ref_count = flushed.ref_count;
            (kept, flushed.bytes)
        })
    }

    /// The list once more, for `end_record`, which takes it by value and asks a value's table for
    /// its column.
    pub fn copy(&self, directory: &Directory) -> LogChange {
        let mut copy = List::new(self.id());
        for kind in Kind::ALL {
            self.entries(kind).iter().for_each(|entry| copy.put(kind, entry));
            self.drops(kind).into_iter().for_each(|table| copy.put_drop(kind, table));
        }
        let mut change = copy.change;
        let with_column = |id: ValueTableId| {
            let table = directory.find(Kind::Value, id.as_u16()).expect("a list that fits");
            id.in_column(table.column)
        };
        let values = change.local_values.into_iter();
        change.local_values = values.map(|(id, overlay)| (with_column(id), overlay)).collect();
        change
    }

    /// What LIST_SUM tells.
    pub fn sum(&self) -> Vec<u8> {
        let mut answer = self.id().to_le_bytes().to_vec();
        for kind in Kind::ALL {
            put_entries(&mut answer, &self.entries(kind), |_| None);
        }
        for kind in [Kind::Index, Kind::RefCount] {
            let drops = self.drops(kind).into_iter().map(u32::from);
            put_nums(&mut answer, &drops.collect::<Vec<_>>());
        }
        answer
    }
}

fn fits(entry: &Entry, kind: Kind, directory: &Directory) -> bool {
    directory.find(kind, entry.table).is_some_and(|table| {
        entry.index < table.count.into() && entry.bytes.len() == table.place_bytes()
    })
}

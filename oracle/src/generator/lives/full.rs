//! Overlays up to their room and past it.

use super::host::Ended;
use crate::{
    directory::{Directory, Kind, Table},
    generator::Generator,
    protocol::LONGEST_OUTPUT,
};

pub const ROOM: usize = 256;

/// The keys of a kind by number, more of them than an overlay has room for.
pub struct Keys {
    pub kind: Kind,
    tables: Vec<Table>,
}

impl Keys {
    pub fn of(directory: &Directory, kind: Kind) -> Keys {
        let mut tables = directory.tables.clone();
        tables.retain(|table| table.kind == kind);
        Keys { kind, tables }
    }

    pub fn key(&self, place: usize) -> (Table, u64) {
        let table = self.tables[place % self.tables.len()];
        (table, (place / self.tables.len()) as u64)
    }

    pub fn room_in_a_list(&self) -> usize {
        match self.kind {
            Kind::Index | Kind::Value => 32,
            Kind::RefCount => 16,
        }
    }
}

impl Generator {
    /// Lists up to 256 keys of each kind and past them; cleared room is used again.
    pub fn full_overlays(&mut self) {
        let directory = self.start_life(ROOM + 40, ROOM + 100);
        self.forge_next_id(4);
        let kinds: &[Kind] = if self.small { &[Kind::Value] } else { &Kind::ALL };
        for kind in kinds {
            let keys = Keys::of(&directory, *kind);
            let records = self.fill_overlay(&keys);
            self.pass_the_room(&keys, &records);
        }
    }

    /// Up to 256 keys, and the records that hold the later ones.
    fn fill_overlay(&mut self, keys: &Keys) -> Vec<Vec<u8>> {
        let few = self.random.between(0, 40);
        let forged = if self.small { 245 } else { self.random.pick(&[0, few, 200]) };
        for place in 0..forged {
            self.forge_key(keys, place);
        }
        let mut filled = forged;
        let mut records = Vec::new();
        while filled < ROOM {
            let any = self.random.between(1, keys.room_in_a_list());
            let new = self.random.pick(&[any, keys.room_in_a_list()]).min(ROOM - filled);
            records.extend(self.end_keys(keys, filled..filled + new));
            filled += new;
        }
        records
    }

    /// One key too many, alone and among others; listed keys only; then room is cleared.
    fn pass_the_room(&mut self, keys: &Keys, records: &[Vec<u8>]) {
        self.end_keys(keys, ROOM..ROOM + 1);
        self.end_keys(keys, ROOM - 3..ROOM + 1);
        self.end_keys(keys, 0..keys.room_in_a_list());
        for _ in 0..3 {
            let place = self.random.below(records.len());
            self.hand_log(&records[place]);
            self.clear_at(0);
            let new = self.random.between(1, 4);
            self.end_keys(keys, ROOM..ROOM + new);
        }
    }

    /// A list of these keys, begun and ended; its record, or none if there is no room.
    fn end_keys(&mut self, keys: &Keys, places: std::ops::Range<usize>) -> Option<Vec<u8>> {
        self.begin();
        for place in places {
            let (table, index) = keys.key(place);
            let mask = self.a_mask();
            // A short value is inserted, all else forged, as that makes short commands.
            match table.kind {
                Kind::Value if table.length < 8 => self.good_insert(&table, index),
                kind => self.forge_entry(kind, table.number, index, mask, table.place_bytes()),
            }
        }
        self.end_into(LONGEST_OUTPUT);
        Ended::told_by(&self.last_answer()).map(|ended| ended.record.to_vec())
    }

    /// Puts one of the keys into the shared overlay, under an early id.
    pub fn forge_key(&mut self, keys: &Keys, place: usize) {
        let (table, index) = keys.key(place);
        let (id, mask) = (self.random.between(1, 3) as u64, self.a_mask());
        self.forge_shared(keys.kind, table.number, index, id, mask, table.place_bytes());
    }
}

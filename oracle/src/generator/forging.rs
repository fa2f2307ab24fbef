//! Forged entries of lists and overlays, and each rule of a list broken.

use super::Generator;
use crate::{
    directory::{Directory, Kind},
    protocol::op,
};

pub type Forge = fn(&mut Generator, &Directory);

/// Ways to break a rule of a list by forging. Those told to be shown leave a list that any state
/// type has room for, with no key twice, so that it can be looked at.
pub const LIST_BREAKS: [(Forge, bool); 11] = [
    (Generator::forge_mask_0, true),
    (Generator::forge_unknown_table, true),
    (Generator::forge_index_too_large, true),
    (Generator::forge_short_value, true),
    (Generator::forge_long_value, false),
    (Generator::forge_key_twice, false),
    (Generator::forge_unknown_drop, true),
    (|generator, directory| generator.forge_too_many(directory, Kind::Index, 33), false),
    (|generator, directory| generator.forge_too_many(directory, Kind::Value, 33), false),
    (|generator, directory| generator.forge_too_many(directory, Kind::RefCount, 17), false),
    (Generator::forge_too_many_drops, false),
];

/// The forging. Index 0 of a table may be listed by then, so the forged ones are others.
impl Generator {
    fn forge_mask_0(&mut self, directory: &Directory) {
        let kind = self.random.pick(&[Kind::Index, Kind::RefCount]);
        let table = self.table_of(directory, kind);
        let index = u64::from(table.count) - 2;
        self.forge_entry(kind, table.number, index, 0, table.place_bytes());
    }

    fn forge_unknown_table(&mut self, directory: &Directory) {
        let table = self.random.pick(&directory.tables);
        let number = self.unknown_number(directory, table.kind);
        self.forge_entry(table.kind, number, 0, 1, table.place_bytes());
    }

    fn forge_index_too_large(&mut self, directory: &Directory) {
        let table = self.random.pick(&directory.tables);
        let index = self.random.pick(&[table.count.into(), 1 << 16, 1 << 32, u64::MAX]);
        self.forge_entry(table.kind, table.number, index, 1, table.place_bytes());
    }

    fn forge_short_value(&mut self, directory: &Directory) {
        let table = self.table_of(directory, Kind::Value);
        let length = self.random.below(table.length as usize);
        self.forge_entry(Kind::Value, table.number, u64::from(table.count) - 2, 0, length);
    }

    fn forge_long_value(&mut self, directory: &Directory) {
        let table = self.table_of(directory, Kind::Value);
        let length = self.random.pick(&[table.length as usize + 1, 513]);
        self.forge_entry(Kind::Value, table.number, u64::from(table.count) - 2, 0, length);
    }

    fn forge_key_twice(&mut self, directory: &Directory) {
        let table = self.random.pick(&directory.tables);
        for _ in 0..2 {
            self.forge_entry(table.kind, table.number, 1, 1, table.place_bytes());
        }
    }

    fn forge_unknown_drop(&mut self, directory: &Directory) {
        let kind = self.random.pick(&[Kind::Index, Kind::RefCount]);
        let number = self.unknown_number(directory, kind);
        self.forge_drop(kind, number);
    }

    fn forge_too_many(&mut self, directory: &Directory, kind: Kind, entries: u64) {
        self.hand_list();
        let table = self.table_of(directory, kind);
        for index in 0..entries {
            self.forge_entry(kind, table.number, index, 1, table.place_bytes());
        }
    }

    fn forge_too_many_drops(&mut self, directory: &Directory) {
        let kind = self.random.pick(&[Kind::Index, Kind::RefCount]);
        self.hand_list();
        let table = self.table_of(directory, kind);
        for _ in 0..17 {
            self.forge_drop(kind, table.number);
        }
    }

    pub fn forge_entry(&mut self, kind: Kind, table: u16, index: u64, mask: u64, length: usize) {
        let key = keyed(op::FORGE_LIST, kind, table, index);
        self.forge_bytes(key, mask, length);
    }

    /// An entry of the shared overlay.
    pub fn forge_shared(
        &mut self,
        kind: Kind,
        table: u16,
        index: u64,
        id: u64,
        mask: u64,
        length: usize,
    ) {
        let mut command = keyed(op::FORGE_OVERLAY, kind, table, index);
        command.extend(id.to_le_bytes());
        self.forge_bytes(command, mask, length);
    }

    /// What the commands that forge an entry end with.
    fn forge_bytes(&mut self, mut command: Vec<u8>, mask: u64, length: usize) {
        command.extend(mask.to_le_bytes());
        command.push(self.random.number() as u8);
        command.extend((length as u16).to_le_bytes());
        self.script.push(command);
    }

    pub fn forge_drop(&mut self, kind: Kind, table: u16) {
        self.script.push([&[op::FORGE_DROP, kind as u8], &table.to_le_bytes()[..]].concat());
    }
}

/// A command that names a kind and a key.
pub fn keyed(opcode: u8, kind: Kind, table: u16, index: u64) -> Vec<u8> {
    [&[opcode, kind as u8], &table.to_le_bytes()[..], &index.to_le_bytes()].concat()
}

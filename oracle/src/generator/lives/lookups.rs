//! Lookups: at every key and where there is none, with the list and without it.

use crate::{
    directory::{Directory, Kind, Table},
    generator::{forging::keyed, queues::with_number, Generator},
    protocol::op,
};

impl Generator {
    /// At every place of the directory, and at some beyond it.
    pub fn look_up_all(&mut self, directory: &Directory) {
        for table in &directory.tables {
            for index in 0..table.count.into() {
                self.look_up_both(table, table.number, index);
            }
        }
        for kind in Kind::ALL {
            let table = self.table_of(directory, kind);
            let unknown = self.unknown_number(directory, kind);
            self.look_up_both(&table, unknown, 0);
            let beyond = self.random.pick(&[table.count.into(), 1 << 32, u64::MAX]);
            self.look_up_both(&table, table.number, beyond);
        }
        self.look_at_last_ids();
    }

    /// With the list, without it, or both.
    fn look_up_both(&mut self, table: &Table, number: u16, index: u64) {
        for with_list in self.random.pick(&[&[0, 1][..], &[0], &[1]]) {
            self.look_up(table, number, index, *with_list);
        }
    }

    /// Of the table's kind; a value also into a destination.
    pub fn look_up(&mut self, table: &Table, number: u16, index: u64, with_list: u8) {
        let mut command = keyed(op::LOOKUP, table.kind, number, index);
        command.insert(2, with_list);
        self.script.push(command);
        if table.kind == Kind::Value {
            let length = table.length as usize;
            let shorter = self.random.below(length);
            let longer = length + self.random.between(1, 40);
            let length = self.random.pick(&[0, shorter, length, longer]);
            let mut command = vec![op::VALUE_INTO, with_list];
            command.extend(number.to_le_bytes());
            command.extend(index.to_le_bytes());
            command.extend((length as u32).to_le_bytes());
            self.script.push(command);
        }
    }

    /// Of every column, and of some above 7.
    pub fn look_at_last_ids(&mut self) {
        for column in (0..=8).chain([255, 256, 1 << 32, u64::MAX]) {
            self.script.push(with_number(op::LAST_ID, column));
        }
    }

    /// Keys in the list, in the shared overlays, in both and in neither; the places are so few that
    /// a list has room for all.
    pub fn forged_lookups(&mut self) {
        let directory = self.start_small_life();
        for table in &directory.tables {
            for index in 0..table.count.into() {
                let bytes = table.place_bytes();
                let (mask, other_mask) = (self.a_mask(), self.a_mask());
                let id = self.random.between(1, 9) as u64;
                if self.random.one_in(2) {
                    self.forge_shared(table.kind, table.number, index, id, mask, bytes);
                }
                if self.random.one_in(2) {
                    self.forge_entry(table.kind, table.number, index, other_mask, bytes);
                }
            }
        }
        self.look_at_list();
        self.look_at_all();
        self.look_up_all(&directory);
    }
}

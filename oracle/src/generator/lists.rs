//! The forms for change lists.

use super::{
    directories::{crowded_directory, directory_for_image, wide_directory, BREAKS},
    forging::LIST_BREAKS,
    queues::with_number,
    Form, Generator,
};
use crate::{
    directory::{Directory, Kind, Table},
    protocol::{op, put_blob, LONGEST_IMAGE, LONGEST_OUTPUT},
};

pub const FORMS: [Form; 8] = [
    Generator::random_lists,
    Generator::full_lists,
    Generator::large_records,
    Generator::wrong_arguments,
    Generator::lists_under_broken_directories,
    Generator::lists_under_other_directories,
    Generator::forged_lists_that_fit,
    Generator::forged_lists_that_break_a_rule,
];

impl Generator {
    /// Inserts of all kinds and drops, keys repeating, in all slots.
    fn random_lists(&mut self) {
        let directory = self.hand_list_directory();
        self.hand_list();
        for _ in 0..self.random.between(0, 40) {
            self.good_change(&directory);
            if self.random.one_in(10) {
                self.look_at_list();
            }
        }
        self.finish_list(&directory);
    }

    /// Past the room of each kind; listed keys are still taken then, and other faults come first.
    fn full_lists(&mut self) {
        let directory = self.hand_wide_directory();
        self.hand_list();
        for kind in Kind::ALL {
            let table = *directory.tables.iter().find(|table| table.kind == kind).expect("wide");
            let keys = self.random.between(15, 36);
            let first = self.random.below(table.count as usize - keys);
            let mut indices: Vec<usize> = (first..first + keys).collect();
            if self.random.one_in(2) {
                indices.reverse();
            }
            for index in &indices {
                self.good_insert(&table, *index as u64);
            }
            for _ in 0..3 {
                let again = self.random.pick(&indices);
                self.good_insert(&table, again as u64);
                self.insert_with(&table, table.number, table.count.into(), 0, 0);
                self.insert_with(&table, table.number, 0, 64, 0);
            }
        }
        for opcode in [op::DROP, op::DROP_REF] {
            for _ in 0..self.random.between(14, 19) {
                self.drop_any(&directory, opcode);
            }
        }
        self.finish_list(&directory);
    }

    /// Forged lists with full masks, up to the largest record.
    fn large_records(&mut self) {
        let directory = self.hand_wide_directory();
        self.hand_list();
        for (kind, room) in [(Kind::Index, 32), (Kind::Value, 32), (Kind::RefCount, 16)] {
            let table = self.table_of(&directory, kind);
            let fewer = self.random.below(room);
            for index in 0..self.random.pick(&[room, room, fewer]) {
                let bytes = table.place_bytes();
                self.forge_entry(kind, table.number, index as u64, u64::MAX, bytes);
            }
            if kind != Kind::Value {
                (0..16).for_each(|_| self.forge_drop(kind, table.number));
            }
        }
        self.finish_list(&directory);
    }

    /// Each argument right and wrong beside each other: which number comes first.
    fn wrong_arguments(&mut self) {
        let directory = self.hand_wide_directory();
        self.hand_list();
        for table in &directory.tables {
            self.good_change(&directory);
            for faults in 0..16 {
                let has = |bit: u32| faults >> bit & 1 == 1;
                let unknown = self.unknown_number(&directory, table.kind);
                let number = if has(0) { unknown } else { table.number };
                let large = self.random.pick(&[table.count.into(), 1 << 16, 1 << 32, u64::MAX]);
                let index = if has(1) { large } else { self.index_below(table.count) };
                let slot = if has(2) { self.random.pick(&[64, 65, 127, 128, 255]) } else { 63 };
                let longer = if has(3) { self.random.pick(&[-1, 1, -8, 8, 512]) } else { 0 };
                self.insert_with(table, number, index, slot, longer);
            }
            for opcode in [op::DROP, op::DROP_REF] {
                self.drop_table(opcode, table.number);
            }
        }
        self.finish_list(&directory);
    }

    fn lists_under_broken_directories(&mut self) {
        let good = self.hand_wide_directory();
        self.hand_list();
        self.good_change(&good);
        for broken in BREAKS {
            let mut directory = good.clone();
            broken(&mut self.random, &mut directory);
            self.script.push(directory.command());
            self.each_call(&good);
            self.script.push(good.command());
            self.good_change(&good);
        }
        self.finish_list(&good);
    }

    /// A directory that a listed key, value or drop may not fit, then the old one again.
    fn lists_under_other_directories(&mut self) {
        let old = self.hand_list_directory();
        self.hand_list();
        for _ in 0..self.random.between(1, 4) {
            self.good_change(&old);
        }
        let mut other = old.clone();
        for _ in 0..self.random.between(1, 2) {
            self.change_a_table(&mut other);
        }
        self.script.push(other.command());
        self.each_call(&other);
        self.script.push(old.command());
        self.good_change(&old);
        self.finish_list(&old);
    }

    pub fn change_a_table(&mut self, directory: &mut Directory) {
        if directory.tables.is_empty() {
            return;
        }
        let place = self.random.below(directory.tables.len());
        let table = &mut directory.tables[place];
        match self.random.below(4) {
            0 => {
                directory.tables.remove(place);
            }
            1 => table.count = 1,
            2 if table.kind == Kind::Value => table.length = table.length % 512 + 1,
            _ => table.column = (table.column + 1) % 8,
        }
    }

    /// Forged entries that keep the rules, before any other; then inserts, into them too.
    fn forged_lists_that_fit(&mut self) {
        let directory = self.hand_wide_directory();
        self.hand_list();
        let mut forged = Vec::new();
        for index in 0..self.random.between(1, 6) as u64 {
            let table = self.random.pick(&directory.tables);
            let mask = self.random.number() | 1 << self.random.below(64);
            self.forge_entry(table.kind, table.number, index, mask, table.place_bytes());
            forged.push((table, index));
        }
        let dropped = self.table_of(&directory, Kind::RefCount);
        self.forge_drop(Kind::RefCount, dropped.number);
        self.look_at_list();
        for _ in 0..self.random.between(1, 4) {
            self.good_change(&directory);
            let (table, index) = self.random.pick(&forged);
            self.good_insert(&table, index);
        }
        self.finish_list(&directory);
    }

    fn forged_lists_that_break_a_rule(&mut self) {
        let directory = self.hand_wide_directory();
        for (forge, shown) in LIST_BREAKS {
            self.hand_list();
            for _ in 0..self.random.below(3) {
                let table = self.random.pick(&directory.tables);
                self.good_insert(&table, 0);
            }
            forge(self, &directory);
            self.each_call(&directory);
            if shown {
                self.look_at_list();
            }
        }
        self.hand_list();
        self.good_change(&directory);
        self.finish_list(&directory);
    }

    /// A look, then the record, written and read.
    fn finish_list(&mut self, directory: &Directory) {
        self.look_at_list();
        self.write_list(directory);
    }
}

/// The commands.
impl Generator {
    fn hand_list_directory(&mut self) -> Directory {
        let directory = match self.random.below(3) {
            0 => crowded_directory(&mut self.random),
            1 => directory_for_image(&mut self.random, LONGEST_IMAGE),
            _ => self.directory(),
        };
        self.script.push(directory.command());
        directory
    }

    fn hand_wide_directory(&mut self) -> Directory {
        let directory = wide_directory(&mut self.random);
        self.script.push(directory.command());
        directory
    }

    pub fn hand_list(&mut self) {
        let any = self.random.number().max(1);
        let id = self.random.pick(&[1, 2, any, u64::MAX]);
        self.hand_list_of(id);
    }

    pub fn hand_list_of(&mut self, id: u64) {
        self.script.push(with_number(op::NEWLIST, id));
    }

    pub fn look_at_list(&mut self) {
        self.script.push(vec![op::LIST_SUM]);
    }

    pub fn table_of(&mut self, directory: &Directory, kind: Kind) -> Table {
        let mut tables = directory.tables.clone();
        tables.retain(|table| table.kind == kind);
        self.random.pick(&tables)
    }

    /// A change that fits the directory; nothing if that is empty.
    pub fn good_change(&mut self, directory: &Directory) {
        if directory.tables.is_empty() {
            return;
        }
        let table = self.random.pick(&directory.tables);
        match drop_of(table.kind).filter(|_| self.random.one_in(6)) {
            Some(opcode) => self.drop_table(opcode, table.number),
            None => {
                let index = self.index_below(table.count);
                self.good_insert(&table, index);
            }
        }
    }

    pub fn good_insert(&mut self, table: &Table, index: u64) {
        let slot = self.random.below(64) as u8;
        self.insert_with(table, table.number, index, slot, 0);
    }

    /// An insert of the table's kind, its chunk or value by so many bytes longer than due. A value
    /// has no slot.
    fn insert_with(&mut self, table: &Table, number: u16, index: u64, slot: u8, longer: isize) {
        let opcode = match table.kind {
            Kind::Index => op::INS_INDEX,
            Kind::Value => op::INS_VALUE,
            Kind::RefCount => op::INS_REF,
        };
        let length = table.place_bytes().saturating_add_signed(longer);
        let mut command = [&[opcode], &number.to_le_bytes()[..], &index.to_le_bytes()].concat();
        if table.kind != Kind::Value {
            command.push(slot);
        }
        let bytes = self.random.bytes(length);
        put_blob(&mut command, &bytes);
        self.script.push(command);
    }

    fn drop_table(&mut self, opcode: u8, number: u16) {
        self.script.push([&[opcode], &number.to_le_bytes()[..]].concat());
    }

    /// Of a table that has the kind, more often than not.
    fn drop_any(&mut self, directory: &Directory, opcode: u8) {
        let mut tables = directory.tables.clone();
        if !self.random.one_in(8) {
            tables.retain(|table| drop_of(table.kind) == Some(opcode));
        }
        if !tables.is_empty() {
            let table = self.random.pick(&tables);
            self.drop_table(opcode, table.number);
        }
    }

    /// Each of the calls on a list once.
    pub fn each_call(&mut self, directory: &Directory) {
        for kind in Kind::ALL {
            let same_kind = directory.tables.iter().copied().filter(|table| table.kind == kind);
            let tables: Vec<Table> = same_kind.collect();
            if !tables.is_empty() {
                let table = self.random.pick(&tables);
                let index = self.index_below(table.count);
                self.good_insert(&table, index);
            }
        }
        self.drop_any(directory, op::DROP);
        self.drop_any(directory, op::DROP_REF);
        self.script.push(vec![op::SIZE]);
        let length = self.random.pick(&[0, 14, LONGEST_OUTPUT]);
        self.write_into(length);
    }
}

fn drop_of(kind: Kind) -> Option<u8> {
    match kind {
        Kind::Index => Some(op::DROP),
        Kind::Value => None,
        Kind::RefCount => Some(op::DROP_REF),
    }
}

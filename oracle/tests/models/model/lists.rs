//! 01, "Change lists and overlays", as far as lists go.

use super::{
    checksum,
    directory::{self, Table},
    Fault, Model, Take,
};

#[derive(Clone)]
pub struct Entry {
    pub table: u64,
    pub index: u64,
    pub mask: u64,
    pub bytes: Vec<u8>,
}

impl Entry {
    pub fn key(&self) -> (u64, u64) {
        (self.table, self.index)
    }
}

/// By kind: 0 index, 1 value, 2 reference count.
#[derive(Default)]
pub struct List {
    pub id: u64,
    pub entries: [Vec<Entry>; 3],
    pub drops: [Vec<u64>; 3],
}

pub const ROOM: [usize; 3] = [32, 32, 16];

impl List {
    pub fn new(id: u64) -> List {
        List { id, ..List::default() }
    }

    fn entries_keep_the_rules(&self, tables: &[Table]) -> bool {
        (0..3).all(|kind| {
            let entries = &self.entries[kind];
            let mut keys: Vec<_> = entries.iter().map(Entry::key).collect();
            keys.sort();
            keys.dedup();
            let fits = |entry: &Entry| match directory::find(tables, kind as u8, entry.table) {
                Some((_, table)) => {
                    entry.index < table.count
                        && entry.bytes.len() as u64 == table.place_bytes()
                        && (kind == 1 || entry.mask != 0)
                }
                None => false,
            };
            keys.len() == entries.len() && keys.len() <= ROOM[kind] && entries.iter().all(fits)
        })
    }

    fn drops_keep_the_rules(&self, tables: &[Table]) -> bool {
        let known = |kind, table: &u64| directory::find(tables, kind as u8, *table).is_some();
        let kept = |kind: usize| {
            let drops = &self.drops[kind];
            drops.len() <= 16 && drops.iter().all(|table| known(kind, table))
        };
        (0..3).all(kept)
    }

    pub fn sorted(&self, kind: usize) -> Vec<&Entry> {
        let mut sorted: Vec<&Entry> = self.entries[kind].iter().collect();
        sorted.sort_by_key(|entry| entry.key());
        sorted
    }

    fn sum(&self) -> Vec<u8> {
        let mut sum = self.id.to_le_bytes().to_vec();
        for kind in 0..3 {
            sum.extend((self.entries[kind].len() as u16).to_le_bytes());
            for entry in self.sorted(kind) {
                sum.extend(&entry.table.to_le_bytes()[..2]);
                sum.extend(entry.index.to_le_bytes());
                sum.extend(if kind == 1 { [0; 8] } else { entry.mask.to_le_bytes() });
                sum.extend(checksum(&entry.bytes).to_le_bytes());
            }
        }
        for kind in [0, 2] {
            sum.extend((self.drops[kind].len() as u16).to_le_bytes());
            for table in &self.drops[kind] {
                sum.extend(&table.to_le_bytes()[..4]);
            }
        }
        sum
    }
}

impl Model {
    /// The commands 05 to 0a, 21, 23 and 24.
    pub fn answer_of_list(&mut self, command: u8, take: &mut Take) -> Vec<u8> {
        match command {
            0x05 => self.list = List::new(take.number(8)),
            0x06 => return vec![self.insert(0, take)],
            0x07 => return vec![self.insert(1, take)],
            0x08 => return vec![self.insert(2, take)],
            0x09 => return vec![self.drop_table(0, take)],
            0x0a => return vec![self.drop_table(2, take)],
            0x21 => {
                let kind = take.number(1) as usize;
                let (table, index, mask) = (take.number(2), take.number(8), take.number(8));
                let fill = take.number(1) as u8;
                let bytes = vec![fill; take.number(2) as usize];
                self.list.entries[kind].push(Entry { table, index, mask, bytes });
            }
            0x24 => {
                let kind = take.number(1) as usize;
                self.list.drops[kind].push(take.number(2));
            }
            _ => return self.list.sum(),
        }
        vec![0]
    }

    fn insert(&mut self, kind: usize, take: &mut Take) -> u8 {
        let (number, index) = (take.number(2), take.number(8));
        let slot = if kind == 1 { 0 } else { take.number(1) };
        let bytes = take.blob().to_vec();
        if !self.list_and_directory_keep_the_rules() {
            return 13;
        }
        let Some((_, table)) = directory::find(&self.directory, kind as u8, number) else {
            return 6;
        };
        let large = index >= table.count;
        let misfit = slot > 63 || bytes.len() as u64 != table.place_bytes();
        if large && !(misfit && self.has(Fault::LengthBeforeIndex)) {
            return 7;
        }
        if misfit {
            return 14;
        }
        let join = self.has(Fault::JoinsChunks);
        let forget = self.has(Fault::ForgetsEarlierBits);
        let needs_room = self.has(Fault::ListedKeyNeedsRoom);
        let entries = &mut self.list.entries[kind];
        let full = entries.len() == ROOM[kind];
        let listed = entries.iter_mut().find(|entry| entry.key() == (number, index));
        match listed {
            Some(_) if full && needs_room => return 9,
            Some(entry) => {
                entry.mask = if forget { 1 << slot } else { entry.mask | 1 << slot };
                if join && kind != 1 {
                    let width = bytes.len() / 64;
                    let place = slot as usize * width;
                    entry.bytes[place..place + width].copy_from_slice(&bytes[place..place + width]);
                } else {
                    entry.bytes = bytes;
                }
            }
            None if full => return 9,
            None => entries.push(Entry { table: number, index, mask: 1 << slot, bytes }),
        }
        0
    }

    fn drop_table(&mut self, kind: usize, take: &mut Take) -> u8 {
        let number = take.number(2);
        if !self.list_and_directory_keep_the_rules() {
            return 13;
        }
        if directory::find(&self.directory, kind as u8, number).is_none() {
            return 6;
        }
        let once = self.has(Fault::DropsOnce);
        let drops = &mut self.list.drops[kind];
        if once && drops.contains(&number) {
            return 0;
        }
        if drops.len() == 16 {
            return 9;
        }
        drops.push(number);
        0
    }

    pub fn list_and_directory_keep_the_rules(&self) -> bool {
        directory::keeps_the_rules(&self.directory)
            && self.list.entries_keep_the_rules(&self.directory)
            && (self.has(Fault::DropsUntested) || self.list.drops_keep_the_rules(&self.directory))
    }
}

//! 01, "The directory and the tables".

use super::Take;

#[derive(Clone)]
pub struct Table {
    /// 0 index, 1 value, 2 reference count.
    pub kind: u8,
    pub number: u64,
    pub column: u64,
    pub count: u64,
    pub length: u64,
}

impl Table {
    pub fn taken(take: &mut Take) -> Table {
        Table {
            kind: take.number(1) as u8,
            number: take.number(2),
            column: take.number(1),
            count: take.number(2),
            length: take.number(2),
        }
    }

    pub fn place_bytes(&self) -> u64 {
        [512, self.length, 1024][self.kind as usize]
    }
}

pub fn keeps_the_rules(tables: &[Table]) -> bool {
    let mut names: Vec<_> = tables.iter().map(|table| (table.kind, table.number)).collect();
    names.sort();
    names.dedup();
    let single = |table: &Table| {
        let lengths = if table.kind == 1 { 1..=512 } else { 0..=0 };
        table.column < 8 && (1..=4096).contains(&table.count) && lengths.contains(&table.length)
    };
    tables.len() <= 16 && names.len() == tables.len() && tables.iter().all(single)
}

pub fn image_length(tables: &[Table]) -> u64 {
    tables.iter().map(|table| table.count * table.place_bytes()).sum()
}

/// Where a table starts in the image, and the table.
pub fn find(tables: &[Table], kind: u8, number: u64) -> Option<(u64, &Table)> {
    let mut start = 0;
    for table in tables {
        if (table.kind, table.number) == (kind, number) {
            return Some((start, table));
        }
        start += table.count * table.place_bytes();
    }
    None
}

//! The directory of tables. The Rust has none: it is an addition of document 01, and so are its rules.

use crate::protocol::{op, Fields};

#[derive(Debug, Clone, Copy, PartialEq, Eq)]
pub enum Kind {
    Index,
    Value,
    RefCount,
}

impl Kind {
    pub const ALL: [Kind; 3] = [Kind::Index, Kind::Value, Kind::RefCount];
}

#[derive(Debug, Clone, Copy)]
pub struct Table {
    pub kind: Kind,
    pub number: u16,
    pub column: u8,
    pub count: u16,
    pub length: u16,
}

impl Table {
    /// The rules for a single table: 01, "The directory and the tables".
    fn keeps_the_rules(&self) -> bool {
        let length_fits = match self.kind {
            Kind::Value => (1..=512).contains(&self.length),
            Kind::Index | Kind::RefCount => self.length == 0,
        };
        self.column <= 7 && (1..=4096).contains(&self.count) && length_fits
    }

    /// How many bytes a chunk or value takes.
    pub fn place_bytes(&self) -> usize {
        match self.kind {
            Kind::Index => 512,
            Kind::Value => self.length as usize,
            Kind::RefCount => 1024,
        }
    }

    pub fn bytes(&self) -> usize {
        self.count as usize * self.place_bytes()
    }
}

#[derive(Debug, Default, Clone)]
pub struct Directory {
    pub tables: Vec<Table>,
}

impl Directory {
    pub const MOST_TABLES: usize = 16;

    pub fn from_fields(fields: &mut Fields) -> Directory {
        let count = fields.u8();
        let tables = (0..count)
            .map(|_| Table {
                kind: Kind::ALL[fields.u8() as usize],
                number: fields.u16(),
                column: fields.u8(),
                count: fields.u16(),
                length: fields.u16(),
            })
            .collect();
        Directory { tables }
    }

    /// The command that hands this directory over.
    pub fn command(&self) -> Vec<u8> {
        let mut command = vec![op::DIR, self.tables.len() as u8];
        for table in &self.tables {
            command.push(table.kind as u8);
            command.extend(table.number.to_le_bytes());
            command.push(table.column);
            command.extend(table.count.to_le_bytes());
            command.extend(table.length.to_le_bytes());
        }
        command
    }

    pub fn keeps_the_rules(&self) -> bool {
        self.tables.len() <= Self::MOST_TABLES
            && self.tables.iter().all(Table::keeps_the_rules)
            && !self.has_a_number_twice()
    }

    /// "No two of one kind share a number."
    fn has_a_number_twice(&self) -> bool {
        self.tables.iter().enumerate().any(|(place, table)| {
            let before = &self.tables[..place];
            before.iter().any(|other| other.kind == table.kind && other.number == table.number)
        })
    }

    pub fn find(&self, kind: Kind, number: u16) -> Option<&Table> {
        self.tables.iter().find(|table| table.kind == kind && table.number == number)
    }

    /// "The tables lie in one lent image in directory order without gaps".
    pub fn image_length(&self) -> usize {
        self.tables.iter().map(Table::bytes).sum()
    }

    /// Where the bytes of a table lie in the image, and the table.
    pub fn place_of(&self, kind: Kind, number: u16) -> Option<(usize, &Table)> {
        let table = self.find(kind, number)?;
        let before = self.tables.iter().take_while(|other| !std::ptr::eq(*other, table));
        Some((before.map(Table::bytes).sum(), table))
    }
}

//! The tables' memory, an addition of document 01: plain bytes, and what an action does to them.

use super::Driver;
use crate::{
    directory::{Directory, Kind},
    protocol::{number, tag, Fields, Stepped},
};

#[derive(Default)]
pub struct Image(Vec<u8>);

impl Image {
    pub fn fits(&self, directory: &Directory) -> bool {
        self.0.len() == directory.image_length()
    }

    /// An action that was checked against this directory.
    pub fn apply(&mut self, action: &Stepped, payload: &[u8], directory: &Directory) {
        match action.tag {
            tag::INDEX => self.set_entries(action, payload, directory, Kind::Index),
            tag::REF_COUNT => self.set_entries(action, payload, directory, Kind::RefCount),
            tag::VALUE => {
                let (start, table) = place_of(directory, Kind::Value, action.table);
                self.set(start + action.index as usize * table.place_bytes(), payload);
            }
            tag::DROP_INDEX => self.zero(directory, Kind::Index, action.table),
            tag::DROP_REF_COUNT => self.zero(directory, Kind::RefCount, action.table),
            _ => {}
        }
    }

    /// The entries behind the mask, "lowest bit first".
    fn set_entries(&mut self, action: &Stepped, payload: &[u8], directory: &Directory, kind: Kind) {
        let (start, table) = place_of(directory, kind, action.table);
        let chunk = start + action.index as usize * table.place_bytes();
        let entry_bytes = table.place_bytes() / 64;
        let (mask, entries) = payload.split_at(8);
        let mask = Fields(mask).u64();
        let slots = (0..64).filter(|slot| mask >> slot & 1 == 1);
        for (slot, entry) in slots.zip(entries.chunks(entry_bytes)) {
            self.set(chunk + slot * entry_bytes, entry);
        }
    }

    fn zero(&mut self, directory: &Directory, kind: Kind, number: u16) {
        let (start, table) = place_of(directory, kind, number);
        self.0[start..start + table.bytes()].fill(0);
    }

    fn set(&mut self, at: usize, bytes: &[u8]) {
        self.0[at..at + bytes.len()].copy_from_slice(bytes);
    }
}

fn place_of(directory: &Directory, kind: Kind, number: u16) -> (usize, &crate::directory::Table) {
    directory.place_of(kind, number).expect("a table that was tested")
}

impl Driver {
    pub fn image(&mut self, fields: &mut Fields) -> Vec<u8> {
        let length = fields.u32() as usize;
        self.image = Image(vec![fields.u8(); length]);
        vec![number::DONE]
    }

    pub fn image_sum(&self) -> Vec<u8> {
        let length = self.image.0.len() as u32;
        [length.to_le_bytes(), crc32fast::hash(&self.image.0).to_le_bytes()].concat()
    }
}

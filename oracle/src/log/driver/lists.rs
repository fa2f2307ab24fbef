//! NEWLIST, the inserts and the drops, LIST_SUM and the forging of lists: a `LogWriter` over the
//! change list. It takes everything, so document 01's tests come before it.

use super::{
    super::{IndexChunk, IndexTableId, LogWriter, RefCountChunk, RefCountTableId, ValueTableId},
    entries::{forged, Entry},
    list::{List, MOST_DROPS},
    Driver,
};
use crate::{
    directory::{Kind, Table},
    protocol::{number, Fields},
};

/// "A mask has 64 bits".
const SLOTS: u8 = 64;

impl Driver {
    pub fn new_list(&mut self, fields: &mut Fields) -> Vec<u8> {
        self.list = List::new(fields.u64());
        vec![number::DONE]
    }

    pub fn insert_index(&mut self, fields: &mut Fields) -> Vec<u8> {
        self.insert_chunk(fields, Kind::Index, |writer, table, index, slot, chunk| {
            let chunk = IndexChunk(chunk.try_into().expect("a chunk's length was tested"));
            writer.insert_index(IndexTableId::from_u16(table), index, slot, chunk);
        })
    }

    pub fn insert_ref_count(&mut self, fields: &mut Fields) -> Vec<u8> {
        self.insert_chunk(fields, Kind::RefCount, |writer, table, index, slot, chunk| {
            let chunk = RefCountChunk(chunk.try_into().expect("a chunk's length was tested"));
            writer.insert_ref_count(RefCountTableId::from_u16(table), index, slot, chunk);
        })
    }

    fn insert_chunk(
        &mut self,
        fields: &mut Fields,
        kind: Kind,
        insert: fn(&mut LogWriter, u16, u64, u8, &[u8]),
    ) -> Vec<u8> {
        let (table, index, slot) = (fields.u16(), fields.u64(), fields.u8());
        let chunk = fields.blob();
        let fits = |table: &Table| slot < SLOTS && chunk.len() == table.place_bytes();
        self.write_if(self.test_insert(kind, table, index, fits), |writer| {
            insert(writer, table, index, slot, chunk)
        })
    }

    pub fn insert_value(&mut self, fields: &mut Fields) -> Vec<u8> {
        let (table, index, value) = (fields.u16(), fields.u64(), fields.blob());
        let fits = |table: &Table| value.len() == table.place_bytes();
        self.write_if(self.test_insert(Kind::Value, table, index, fits), |writer| {
            writer.insert_value(ValueTableId::from_u16(table), index, value.to_vec())
        })
    }

    pub fn drop_table(&mut self, fields: &mut Fields) -> Vec<u8> {
        let table = fields.u16();
        self.write_if(self.test_drop(Kind::Index, table), |writer| {
            writer.drop_table(IndexTableId::from_u16(table))
        })
    }

    pub fn drop_ref_count_table(&mut self, fields: &mut Fields) -> Vec<u8> {
        let table = fields.u16();
        self.write_if(self.test_drop(Kind::RefCount, table), |writer| {
            writer.drop_ref_count_table(RefCountTableId::from_u16(table))
        })
    }

    /// 13, 6, 7, 14, 9.
    fn test_insert(
        &self,
        kind: Kind,
        number: u16,
        index: u64,
        fits: impl Fn(&Table) -> bool,
    ) -> Result<(), u8> {
        let table = self.known_table(kind, number)?;
        if index >= table.count.into() {
            Err(number::INDEX_TOO_LARGE)
        } else if !fits(table) {
            Err(number::BEYOND_THE_END)
        } else if !self.list.has_room_for(kind, number, index) {
            Err(number::NO_ROOM)
        } else {
            Ok(())
        }
    }

    /// 13, 6, 9.
    fn test_drop(&self, kind: Kind, number: u16) -> Result<(), u8> {
        self.known_table(kind, number)?;
        if self.list.drops(kind).len() == MOST_DROPS {
            return Err(number::NO_ROOM);
        }
        Ok(())
    }

    fn known_table(&self, kind: Kind, number: u16) -> Result<&Table, u8> {
        if !self.list_keeps_the_rules() {
            return Err(number::RULE_BROKEN);
        }
        self.directory.find(kind, number).ok_or(number::UNKNOWN_TABLE)
    }

    pub fn list_keeps_the_rules(&self) -> bool {
        self.directory.keeps_the_rules() && self.list.keeps_the_rules(&self.directory)
    }

    /// Calls a writer over the list, unless a test refuses.
    fn write_if(&mut self, tested: Result<(), u8>, call: impl FnOnce(&mut LogWriter)) -> Vec<u8> {
        match tested {
            Ok(()) => {
                self.with_writer(call);
                vec![number::DONE]
            }
            Err(number) => vec![number],
        }
    }

    /// A writer over the list and the shared overlays.
    pub fn with_writer<R>(&mut self, call: impl FnOnce(&mut LogWriter) -> R) -> R {
        let overlays = self.state.overlays();
        self.list.lend(|change| {
            let mut writer = LogWriter { overlays, log: change };
            let answer = call(&mut writer);
            (writer.drain(), answer)
        })
    }

    pub fn forge_list(&mut self, fields: &mut Fields) -> Vec<u8> {
        let kind = Kind::ALL[fields.u8() as usize];
        let (table, index) = (fields.u16(), fields.u64());
        let (mask, bytes) = forged(fields);
        let id = self.list.id();
        self.list.put(kind, &Entry { table, index, id, mask, bytes: &bytes });
        vec![number::DONE]
    }

    pub fn forge_drop(&mut self, fields: &mut Fields) -> Vec<u8> {
        let kind = Kind::ALL[fields.u8() as usize];
        self.list.put_drop(kind, fields.u16());
        vec![number::DONE]
    }
}

/// What the Rust does by itself where the driver goes by document 01: docs/DIFFERENCES.md.
#[cfg(test)]
mod tests {
    use super::*;
    use std::panic::{catch_unwind, AssertUnwindSafe};

    fn with_writer(call: impl FnOnce(&mut LogWriter)) -> List {
        let mut driver = Driver::new().unwrap();
        driver.write_if(Ok(()), call);
        driver.list
    }

    fn insert_index(writer: &mut LogWriter, index: u64, slot: u8) {
        writer.insert_index(IndexTableId::from_u16(0), index, slot, IndexChunk([0; 512]));
    }

    /// Slot 64 is slot 0, or stops the program where overflow is tested.
    #[test]
    fn slot_64_is_taken() {
        let taken = catch_unwind(AssertUnwindSafe(|| {
            with_writer(|writer| insert_index(writer, 0, 64)).entries(Kind::Index)[0].mask
        }));
        assert_eq!(taken.ok(), (!cfg!(debug_assertions)).then_some(1));
    }

    #[test]
    fn a_value_of_any_length_is_taken() {
        let list = with_writer(|writer| {
            writer.insert_value(ValueTableId::from_u16(0), 0, Vec::new());
        });
        assert_eq!(list.entries(Kind::Value)[0].bytes, []);
    }

    #[test]
    fn there_is_always_room() {
        let list = with_writer(|writer| {
            (0..33).for_each(|index| insert_index(writer, index, 0));
            (0..17).for_each(|_| writer.drop_table(IndexTableId::from_u16(0)));
        });
        assert_eq!(list.entries(Kind::Index).len(), 33);
        assert_eq!(list.drops(Kind::Index).len(), 17);
    }
}

//! LOOKUP, VALUE_INTO, OVERLAYS, LAST_ID and FORGE_OVERLAY: the overlays that all records share, and
//! document 01's rules for them.

use super::{
    super::{IndexTableId, LogOverlays, LogQuery, RefCountTableId, ValueTableId},
    entries::{forged, put_entries, sorted, Entry, Overlay},
    list::List,
    state::State,
    writing::FILL,
    Driver,
};
use crate::{
    column::ColId,
    directory::Kind,
    protocol::{number, put_blob, Fields},
};
use std::collections::BTreeSet;

/// "each for 256 keys".
const MOST_KEYS: usize = 256;

/// What is known of the overlays beside the Rust's maps, by kind.
#[derive(Default)]
pub struct Shared {
    /// The tables that may have entries. The Rust has a map for every table number.
    tables: [BTreeSet<u16>; 3],
    /// An entry was forged that the Rust's maps can't hold. Such an overlay breaks a rule, and no
    /// call shows it.
    beyond_the_rust: [bool; 3],
}

/// A table's place in the Rust's lists is its number.
fn overlay_of(overlays: &LogOverlays, kind: Kind, table: u16) -> &dyn Overlay {
    let place = usize::from(table);
    match kind {
        Kind::Index => &overlays.index[place],
        Kind::Value => &overlays.value[place],
        Kind::RefCount => &overlays.ref_count[place],
    }
}

fn entries<'a>(
    overlays: &'a LogOverlays,
    kind: Kind,
    tables: impl Iterator<Item = u16>,
) -> Vec<Entry<'a>> {
    sorted(tables.map(|table| (table, overlay_of(overlays, kind, table))))
}

impl State {
    pub fn overlays_keep_the_rules(&self) -> bool {
        Kind::ALL.into_iter().all(|kind| self.overlay_keeps_the_rules(kind))
    }

    /// At most 256 keys, no key twice, no mask 0, a value of 1 to 512 bytes.
    fn overlay_keeps_the_rules(&self, kind: Kind) -> bool {
        let overlays = self.overlays().read();
        let entries = entries(&overlays, kind, self.tables(kind));
        !self.shared.beyond_the_rust[kind as usize]
            && entries.len() <= MOST_KEYS
            && entries.iter().all(|entry| entry.keeps_the_rules(kind))
    }

    fn tables(&self, kind: Kind) -> impl Iterator<Item = u16> + '_ {
        self.shared.tables[kind as usize].iter().copied()
    }

    /// "no room is answered exactly if shared and listed keys together pass 256, a key in both
    /// counted once".
    pub fn have_room_for(&self, list: &List) -> bool {
        Kind::ALL.into_iter().all(|kind| {
            let overlays = self.overlays().read();
            let shared = entries(&overlays, kind, self.tables(kind));
            let mut keys: BTreeSet<(u16, u64)> = shared.iter().map(Entry::key).collect();
            keys.extend(list.entries(kind).iter().map(Entry::key));
            keys.len() <= MOST_KEYS
        })
    }

    /// A list is going to be put over the shared overlays.
    pub fn expect_entries_of(&mut self, list: &List) {
        for kind in Kind::ALL {
            let tables = list.entries(kind);
            self.shared.tables[kind as usize].extend(tables.iter().map(|entry| entry.table));
        }
    }

    fn forge_entry(&mut self, kind: Kind, entry: &Entry) {
        self.shared.tables[kind as usize].insert(entry.table);
        let mut overlays = self.log.overlays.write();
        let place = usize::from(entry.table);
        let overlay: &mut dyn Overlay = match kind {
            Kind::Index => &mut overlays.index[place],
            Kind::Value => &mut overlays.value[place],
            Kind::RefCount => &mut overlays.ref_count[place],
        };
        self.shared.beyond_the_rust[kind as usize] |= !overlay.put(entry);
    }
}

/// The lookups of `LogQuery`, for whatever answers them.
trait Query {
    fn stored(&self, kind: Kind, table: u16, index: u64) -> Option<Vec<u8>>;
    fn value_into(&self, table: u16, index: u64, destination: &mut [u8]) -> bool;
}

impl<Q: LogQuery> Query for Q {
    fn stored(&self, kind: Kind, table: u16, index: u64) -> Option<Vec<u8>> {
        match kind {
            Kind::Index => {
                self.with_index(IndexTableId::from_u16(table), index, |chunk| chunk.0.to_vec())
            }
            Kind::Value => {
                self.value_ref(ValueTableId::from_u16(table), index).map(|value| value.to_vec())
            }
            Kind::RefCount => {
                self.ref_count(RefCountTableId::from_u16(table), index, |chunk| chunk.0.to_vec())
            }
        }
    }

    fn value_into(&self, table: u16, index: u64, destination: &mut [u8]) -> bool {
        self.value(ValueTableId::from_u16(table), index, destination)
    }
}

impl Driver {
    pub fn lookup(&mut self, fields: &mut Fields) -> Vec<u8> {
        let (kind, with_list) = (Kind::ALL[fields.u8() as usize], fields.u8() != 0);
        let (table, index) = (fields.u16(), fields.u64());
        let (number, stored) =
            self.query(kind, with_list, |query| query.stored(kind, table, index));
        let mut answer = vec![number, stored.is_some().into()];
        put_blob(&mut answer, &stored.unwrap_or_default());
        answer
    }

    pub fn value_into(&mut self, fields: &mut Fields) -> Vec<u8> {
        let (with_list, table, index) = (fields.u8() != 0, fields.u16(), fields.u64());
        let mut destination = vec![FILL; fields.u32() as usize];
        let (number, found) = self.query(Kind::Value, with_list, |query| {
            query.value_into(table, index, &mut destination)
        });
        let mut answer = vec![number, found.into()];
        put_blob(&mut answer, &destination);
        answer
    }

    /// By the list and the shared overlays, or by these alone; 13 if what is asked breaks a rule. A
    /// lookup has no directory.
    fn query<R: Default>(
        &mut self,
        kind: Kind,
        with_list: bool,
        call: impl FnOnce(&dyn Query) -> R,
    ) -> (u8, R) {
        let list_keeps_the_rules = !with_list || self.list.overlay_keeps_the_rules(kind);
        if !list_keeps_the_rules || !self.state.overlay_keeps_the_rules(kind) {
            return (number::RULE_BROKEN, R::default());
        }
        let answer = match with_list {
            true => self.with_writer(|writer| call(writer)),
            false => call(self.state.overlays()),
        };
        (number::DONE, answer)
    }

    pub fn overlays(&self) -> Vec<u8> {
        let overlays = self.state.overlays().read();
        let mut answer = Vec::new();
        for kind in Kind::ALL {
            put_entries(&mut answer, &entries(&overlays, kind, self.state.tables(kind)), |entry| {
                Some(entry.id)
            });
        }
        answer
    }

    /// log.rs takes a byte for the column.
    pub fn last_id(&self, fields: &mut Fields) -> Vec<u8> {
        let overlays = self.state.overlays().read();
        let column = ColId::try_from(fields.u64());
        let id = column.map_or(u64::MAX, |column| overlays.last_record_id(column));
        id.to_le_bytes().to_vec()
    }

    pub fn forge_overlay(&mut self, fields: &mut Fields) -> Vec<u8> {
        let kind = Kind::ALL[fields.u8() as usize];
        let (table, index, id) = (fields.u16(), fields.u64(), fields.u64());
        let (mask, bytes) = forged(fields);
        self.state.forge_entry(kind, &Entry { table, index, id, mask, bytes: &bytes });
        vec![number::DONE]
    }
}

#[cfg(test)]
mod tests {
    use super::*;

    /// No table but those told has entries.
    #[test]
    fn all_entries_are_shown() {
        let forge = "2202ffff000000000000000001000000000000000100000000000000110004";
        let directory = "01010105000001000100";
        let insert = "070500000000000000000001000000ff";
        let driver = Driver::after(&[directory, forge, "11", insert, "1200100000"]);
        let overlays = driver.state.overlays().read();
        let expected: [&[u16]; 3] = [&[], &[5], &[0xffff]];
        for (kind, expected) in Kind::ALL.into_iter().zip(expected) {
            let of = |entries: Vec<Entry>| entries.iter().map(|e| e.table).collect::<Vec<_>>();
            assert_eq!(of(entries(&overlays, kind, 0..=u16::MAX)), expected);
            assert_eq!(of(entries(&overlays, kind, driver.state.tables(kind))), expected);
        }
    }
}

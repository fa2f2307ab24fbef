//! The entries of the Rust's overlays: those of a list and the shared ones, of every kind.

use super::super::{
    IndexChunk, IndexLogOverlay, RefCountChunk, RefCountLogOverlay, ValueLogOverlay,
};
use crate::{directory::Kind, protocol::Fields};
use std::hash::BuildHasher;

pub struct Entry<'a> {
    pub table: u16,
    pub index: u64,
    pub id: u64,
    /// 0 for values.
    pub mask: u64,
    pub bytes: &'a [u8],
}

impl Entry<'_> {
    pub fn key(&self) -> (u16, u64) {
        (self.table, self.index)
    }

    /// What can be said of an entry without a directory.
    pub fn keeps_the_rules(&self, kind: Kind) -> bool {
        match kind {
            Kind::Index | Kind::RefCount => self.mask != 0,
            Kind::Value => (1..=512).contains(&self.bytes.len()),
        }
    }
}

/// How many, then each with its key, its id if one is to be shown, its mask, and a checksum for its
/// bytes.
pub fn put_entries(answer: &mut Vec<u8>, entries: &[Entry], id: fn(&Entry) -> Option<u64>) {
    answer.extend((entries.len() as u16).to_le_bytes());
    for entry in entries {
        answer.extend(entry.table.to_le_bytes());
        answer.extend(entry.index.to_le_bytes());
        answer.extend(id(entry).into_iter().flat_map(u64::to_le_bytes));
        answer.extend(entry.mask.to_le_bytes());
        answer.extend(crc32fast::hash(entry.bytes).to_le_bytes());
    }
}

/// The entries of several tables by table, then index: the Rust's maps have no order.
pub fn sorted<'a>(overlays: impl Iterator<Item = (u16, &'a dyn Overlay)>) -> Vec<Entry<'a>> {
    let mut entries: Vec<Entry> =
        overlays.flat_map(|(table, overlay)| overlay.entries(table)).collect();
    entries.sort_by_key(Entry::key);
    entries
}

/// The end of a forging command: a mask, and the bytes as a fill and a length.
pub fn forged(fields: &mut Fields) -> (u64, Vec<u8>) {
    let (mask, fill) = (fields.u64(), fields.u8());
    (mask, vec![fill; fields.u16() as usize])
}

/// What log.rs keeps for one table, whatever it is hashed by.
pub trait Overlay {
    fn entries(&self, table: u16) -> Vec<Entry<'_>>;

    /// False if the Rust's map can't hold the entry beside the others: its key is there, or its
    /// chunk has another length.
    fn put(&mut self, entry: &Entry) -> bool;
}

impl<S: BuildHasher + Default> Overlay for ValueLogOverlay<S> {
    fn entries(&self, table: u16) -> Vec<Entry<'_>> {
        let values = self.map.iter();
        values
            .map(|(&index, &(id, ref bytes))| Entry { table, index, id, mask: 0, bytes })
            .collect()
    }

    fn put(&mut self, entry: &Entry) -> bool {
        self.map.insert(entry.index, (entry.id, entry.bytes.to_vec())).is_none()
    }
}

macro_rules! overlay_of_chunks {
    ($overlay:ident, $chunk:ident) => {
        impl<S: BuildHasher + Default> Overlay for $overlay<S> {
            fn entries(&self, table: u16) -> Vec<Entry<'_>> {
                let chunks = self.map.iter();
                chunks
                    .map(|(&index, &(id, mask, ref chunk))| Entry {
                        table,
                        index,
                        id,
                        mask,
                        bytes: &chunk.0,
                    })
                    .collect()
            }

            fn put(&mut self, entry: &Entry) -> bool {
                entry.bytes.try_into().is_ok_and(|chunk| {
                    let stored = (entry.id, entry.mask, $chunk(chunk));
                    self.map.insert(entry.index, stored).is_none()
                })
            }
        }
    };
}
overlay_of_chunks!(IndexLogOverlay, IndexChunk);
overlay_of_chunks!(RefCountLogOverlay, RefCountChunk);

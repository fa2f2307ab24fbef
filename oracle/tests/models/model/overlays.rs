//! 01, "Change lists and overlays", as far as the shared overlays and lookups go.

use super::{
    checksum,
    lists::{Entry, ROOM},
    put, Fault, Model, Take,
};

pub struct Shared {
    pub id: u64,
    pub entry: Entry,
}

pub struct Overlays {
    /// By kind, as in a list.
    pub entries: [Vec<Shared>; 3],
    pub last_ids: [u64; 8],
    pub next_id: u64,
}

impl Overlays {
    pub fn new() -> Overlays {
        Overlays { entries: Default::default(), last_ids: [0; 8], next_id: 1 }
    }

    fn sum(&self) -> Vec<u8> {
        let mut sum = Vec::new();
        for kind in 0..3 {
            let mut sorted: Vec<&Shared> = self.entries[kind].iter().collect();
            sorted.sort_by_key(|shared| shared.entry.key());
            put(&mut sum, sorted.len() as u64, 2);
            for Shared { id, entry } in sorted {
                put(&mut sum, entry.table, 2);
                put(&mut sum, entry.index, 8);
                put(&mut sum, *id, 8);
                put(&mut sum, if kind == 1 { 0 } else { entry.mask }, 8);
                put(&mut sum, checksum(&entry.bytes).into(), 4);
            }
        }
        sum
    }
}

/// No key twice, no mask 0, no value that is empty or too long.
fn keep_the_rules<'a>(kind: usize, entries: impl Iterator<Item = &'a Entry>) -> bool {
    let mut keys = Vec::new();
    for entry in entries {
        let fits = if kind == 1 { (1..=512).contains(&entry.bytes.len()) } else { entry.mask != 0 };
        if !fits {
            return false;
        }
        keys.push(entry.key());
    }
    let all = keys.len();
    keys.sort();
    keys.dedup();
    keys.len() == all
}

impl Model {
    /// The commands 1a, 1b, 1d, 1e and 22.
    pub fn answer_of_overlays(&mut self, command: u8, take: &mut Take) -> Vec<u8> {
        match command {
            0x1a => {
                let (kind, with_list) = (take.number(1) as usize, take.number(1) == 1);
                let found = self.lookup(kind, with_list, (take.number(2), take.number(8)));
                let mut answer = vec![found.map_or(13, |_| 0)];
                let bytes = found.flatten();
                answer.push(bytes.is_some().into());
                let bytes = bytes.unwrap_or_default();
                put(&mut answer, bytes.len() as u64, 4);
                answer.extend(bytes);
                answer
            }
            0x1b => self.value_into(take),
            0x1d => self.overlays.sum(),
            0x1e => {
                let column = take.number(8);
                let column = if self.has(Fault::ColumnOfAByte) { column & 255 } else { column };
                let id = self.overlays.last_ids.get(column as usize).copied().unwrap_or(u64::MAX);
                id.to_le_bytes().to_vec()
            }
            _ => {
                let kind = take.number(1) as usize;
                let (table, index, id) = (take.number(2), take.number(8), take.number(8));
                let (mask, fill) = (take.number(8), take.number(1) as u8);
                let bytes = vec![fill; take.number(2) as usize];
                let entry = Entry { table, index, mask, bytes };
                self.overlays.entries[kind].push(Shared { id, entry });
                vec![0]
            }
        }
    }

    /// The stored bytes, if any; none at all if a rule is broken.
    fn lookup(&self, kind: usize, with_list: bool, key: (u64, u64)) -> Option<Option<&[u8]>> {
        let list = &self.list.entries[kind];
        let list_kept = list.len() <= ROOM[kind] && keep_the_rules(kind, list.iter());
        if with_list && !list_kept || !self.overlay_keeps_the_rules(kind) {
            return None;
        }
        let shared = self.overlays.entries[kind].iter().map(|shared| &shared.entry);
        let (mut first, mut second): (Vec<&Entry>, Vec<&Entry>) =
            (list.iter().filter(|_| with_list).collect(), shared.collect());
        if self.has(Fault::SharedBeforeLocal) {
            std::mem::swap(&mut first, &mut second);
        }
        let found = first.into_iter().chain(second).find(|entry| entry.key() == key);
        Some(found.map(|entry| &entry.bytes[..]))
    }

    fn value_into(&self, take: &mut Take) -> Vec<u8> {
        let with_list = take.number(1) == 1;
        let key = (take.number(2), take.number(8));
        let mut destination = vec![0x5a; take.number(4) as usize];
        let found = self.lookup(1, with_list, key);
        if let Some(Some(value)) = found {
            let length = value.len().min(destination.len());
            destination[..length].copy_from_slice(&value[..length]);
            if self.has(Fault::CopyEmptiesTheRest) {
                destination[length..].fill(0);
            }
        }
        let mut answer = vec![found.map_or(13, |_| 0), found.flatten().is_some().into()];
        put(&mut answer, destination.len() as u64, 4);
        answer.extend(destination);
        answer
    }

    pub fn overlays_keep_the_rules(&self) -> bool {
        (0..3).all(|kind| self.overlay_keeps_the_rules(kind))
    }

    fn overlay_keeps_the_rules(&self, kind: usize) -> bool {
        let entries = &self.overlays.entries[kind];
        let room = entries.len() <= 256 || self.has(Fault::OverlayRoomUntested);
        room && keep_the_rules(kind, entries.iter().map(|shared| &shared.entry))
    }
}

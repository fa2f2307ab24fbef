//! Random numbers, folders, and records to write.

use hongsathep::{ChangeList, Directory, IndexTableId, RefCountTableId, ValueTableId};
use std::{
    env, fs,
    path::{Path, PathBuf},
    process,
    sync::atomic::{AtomicUsize, Ordering},
};

/// splitmix64.
pub struct Random(pub u64);

impl Random {
    pub fn next(&mut self) -> u64 {
        self.0 = self.0.wrapping_add(0x9e37_79b9_7f4a_7c15);
        let mixed = (self.0 ^ self.0 >> 30).wrapping_mul(0xbf58_476d_1ce4_e5b9);
        let mixed = (mixed ^ mixed >> 27).wrapping_mul(0x94d0_49bb_1331_11eb);
        mixed ^ mixed >> 31
    }

    pub fn below(&mut self, limit: u64) -> u64 {
        self.next() % limit
    }

    pub fn bytes(&mut self, length: usize) -> Vec<u8> {
        (0..length).map(|_| self.next() as u8).collect()
    }
}

/// A folder that goes with its owner; in memory where the machine has such a place, unless a device is wanted.
pub struct Scratch(PathBuf);

impl Scratch {
    pub fn new() -> Scratch {
        let memory = Path::new("/dev/shm");
        Scratch::in_folder(&if memory.is_dir() { memory.to_path_buf() } else { env::temp_dir() })
    }

    pub fn on_a_device() -> Scratch {
        Scratch::in_folder(&env::temp_dir())
    }

    fn in_folder(root: &Path) -> Scratch {
        static COUNT: AtomicUsize = AtomicUsize::new(0);
        let number = COUNT.fetch_add(1, Ordering::Relaxed);
        let folder = root.join(format!("hongsathep-{}-{number}", process::id()));
        fs::create_dir(&folder).unwrap();
        Scratch(folder)
    }

    pub fn path(&self) -> &Path {
        &self.0
    }

    pub fn file(&self, number: u32) -> PathBuf {
        self.0.join(format!("log{number}"))
    }
}

impl Drop for Scratch {
    fn drop(&mut self) {
        // A folder left behind harms nobody, and a panic here would hide its cause.
        let _ = fs::remove_dir_all(&self.0);
    }
}

pub const INDEX: IndexTableId = IndexTableId(3);
pub const VALUE: ValueTableId = ValueTableId(7);
pub const REF_COUNT: RefCountTableId = RefCountTableId(2);

/// A small directory of all kinds.
pub fn directory() -> Directory {
    "index 3 0 4\nvalue 7 1 16 20\nrefcount 2 0 3".parse().unwrap()
}

/// Fills a list with changes that follow from a seed.
pub fn fill(list: &mut ChangeList, seed: u64) {
    let mut random = Random(seed);
    for _ in 0..random.below(4) {
        let (index, slot, chunk) = (random.below(4), random.below(64) as u8, random.bytes(512));
        list.insert_index(INDEX, index, slot, &chunk).unwrap();
    }
    for _ in 0..random.below(4) {
        let (index, value) = (random.below(16), random.bytes(20));
        list.insert_value(VALUE, index, &value).unwrap();
    }
    for _ in 0..random.below(3) {
        let (index, slot, chunk) = (random.below(3), random.below(64) as u8, random.bytes(1024));
        list.insert_ref_count(REF_COUNT, index, slot, &chunk).unwrap();
    }
    match random.below(12) {
        0 => list.drop_table(INDEX).unwrap(),
        1 => list.drop_ref_count_table(REF_COUNT).unwrap(),
        _ => {}
    }
}

/// The record of an id, whose changes follow from it.
pub fn record(directory: &Directory, id: u64) -> Vec<u8> {
    let mut list = ChangeList::new(directory, id);
    fill(&mut list, id);
    list.record()
}

//! Inserts into lists, through both doors.
use super::super::*;
use super::figures::{best, Figures};
use super::host::{count_table, fill, index_table, value_table, COUNT_CHUNK, INDEX_CHUNK};
use super::port::{Listed, DOORS};
use super::tables::{Tables, VALUE};
use super::Setting;
use std::hint::black_box;

const LISTS: u64 = 1000;

/// Inserts of a kind into one list, keys apart by a stride.
const ROWS: [(&str, u64, u64, u64); 5] = [
    ("index, 16 a list, ascending", 0, 16, 1),
    ("value, 16 a list, ascending", 1, 16, 1),
    ("value, 16 a list, scattered", 1, 16, 37),
    ("value, 32 a list, scattered", 1, 32, 37),
    ("reference count, 16 a list, ascending", 2, 16, 1),
];

pub fn rows(_: &Setting, f: &mut Figures) {
    let t = Tables::three().words();
    let overlays = RwLock::new(LogOverlays::with_columns(8));
    let mut l = Listed::new();
    let rust = best(|| {
        for n in 0..LISTS {
            let mut w = LogWriter::new(&overlays, n + 1);
            fill(&mut w, n, &l);
            black_box(w.drain());
        }
    });
    for (door, name) in DOORS {
        let ours = best(|| l.fill(&t, door, LISTS));
        let each = 1e9 / (LISTS * 17) as f64;
        f.time(&format!("17 inserts a list, mixed{name}"), ours * each, rust * each);
    }
    for (row, kind, inserts, stride) in ROWS {
        let rust = best(|| one_kind(&overlays, &l.data, kind, inserts, stride));
        for (door, name) in DOORS {
            let ours = best(|| l.insert(&t, door, kind, inserts, stride, LISTS));
            let each = 1e9 / (LISTS * inserts) as f64;
            f.time(&format!("{row}{name}"), ours * each, rust * each);
        }
    }
}

fn one_kind(overlays: &RwLock<LogOverlays>, data: &[u8], kind: u64, inserts: u64, stride: u64) {
    for n in 0..LISTS {
        let mut w = LogWriter::new(overlays, n + 1);
        for k in 0..inserts {
            let i = (n + k * stride) % 256;
            match kind {
                0 => w.insert_index(index_table(), i, 5, INDEX_CHUNK.clone()),
                1 => w.insert_value(value_table(), i, data[..VALUE].to_vec()),
                _ => w.insert_ref_count(count_table(), i, 5, COUNT_CHUNK.clone()),
            }
        }
        black_box(w.drain());
    }
}

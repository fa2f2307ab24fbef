//! The exported calls of the proved library, one at a time from Rust: each reads its states from words and stores them back.
use super::super::*;
use super::figures::{best, best_of, seconds, Figures};
use super::host::value_table;
use super::looking::{keys, rust_each};
use super::made::{key, RECORD};
use super::port::{foreign, lent, open, Door, Listed, Shared, DOORS, S};
use super::tables::{Tables, VALUE};
use super::{ending, host, Setting};
use std::hint::black_box;

foreign! {
    fn hongsathep_list_new(list: S, id: u64) -> u64;
    fn hongsathep_insert_index(
        tables: S,
        list: S,
        items: S,
        chunks: S,
        table: u16,
        index: u64,
        sub: u8,
        data: S,
    ) -> u64;
    fn hongsathep_insert_index_kept(
        tables: S,
        list: S,
        items: S,
        chunks: S,
        table: u16,
        index: u64,
        sub: u8,
        data: S,
    ) -> u64;
    fn hongsathep_insert_value(
        tables: S,
        list: S,
        items: S,
        chunks: S,
        table: u16,
        index: u64,
        data: S,
    ) -> u64;
    fn hongsathep_insert_value_kept(
        tables: S,
        list: S,
        items: S,
        chunks: S,
        table: u16,
        index: u64,
        data: S,
    ) -> u64;
    fn hongsathep_insert_ref_count(
        tables: S,
        list: S,
        items: S,
        chunks: S,
        table: u16,
        index: u64,
        sub: u8,
        data: S,
    ) -> u64;
    fn hongsathep_insert_ref_count_kept(
        tables: S,
        list: S,
        items: S,
        chunks: S,
        table: u16,
        index: u64,
        sub: u8,
        data: S,
    ) -> u64;
    fn hongsathep_lookup(
        kind: u64,
        head: S,
        words: S,
        bytes: S,
        table: u16,
        index: u64,
        memory: &mut u64,
        place: &mut u64,
        length: &mut u64,
    ) -> u64;
    fn hongsathep_lookup_kept(
        kind: u64,
        head: S,
        words: S,
        bytes: S,
        table: u16,
        index: u64,
        memory: &mut u64,
        place: &mut u64,
        length: &mut u64,
    ) -> u64;
    fn hongsathep_queues_new(queues: S) -> u64;
    fn hongsathep_end_record(
        tables: S,
        list: S,
        items: S,
        chunks: S,
        head: S,
        words: S,
        bytes: S,
        queues: S,
        next: u64,
        out: S,
        size: &mut u64,
        source: &mut u64,
        file: &mut u64,
    ) -> u64;
    fn hongsathep_end_record_kept(
        tables: S,
        list: S,
        items: S,
        chunks: S,
        head: S,
        words: S,
        bytes: S,
        queues: S,
        next: u64,
        out: S,
        size: &mut u64,
        source: &mut u64,
        file: &mut u64,
    ) -> u64;
}

/// The 17 inserts of a record of 789 bytes; what they answered, summed up.
fn fill(tables: &[u64], list: &mut [u64], l: &mut Listed, n: u64, door: Door) -> u64 {
    let (tables, list, items, chunks) =
        (&lent(tables), &open(list), &open(&mut l.items), &open(&mut l.chunks));
    let (index_data, value, count_data) =
        (&lent(&l.data[..512]), &lent(&l.data[..VALUE]), &lent(&l.data[..1024]));
    let kept = door == Door::Kept;
    let insert_index = if kept { hongsathep_insert_index_kept } else { hongsathep_insert_index };
    let insert_value = if kept { hongsathep_insert_value_kept } else { hongsathep_insert_value };
    let insert_count =
        if kept { hongsathep_insert_ref_count_kept } else { hongsathep_insert_ref_count };
    let mut answers = 0;
    unsafe {
        hongsathep_list_new(list, n + 1);
        for k in 0..4 {
            let i = key(&l.places, n, 4 * n + k);
            answers += insert_index(tables, list, items, chunks, 1, i, (n % 64) as u8, index_data);
            answers +=
                insert_index(tables, list, items, chunks, 1, i, ((n + 7) % 64) as u8, index_data);
        }
        for k in 0..8 {
            answers +=
                insert_value(tables, list, items, chunks, 2, key(&l.places, n, 8 * n + k), value);
        }
        answers
            + insert_count(
                tables,
                list,
                items,
                chunks,
                3,
                key(&l.places, n, n),
                (n % 64) as u8,
                count_data,
            )
    }
}

const LISTS: u64 = 1000;

fn inserts(f: &mut Figures) {
    let t = Tables::three().words();
    let mut l = Listed::new();
    let mut list = [0u64; 38];
    let overlays = RwLock::new(LogOverlays::with_columns(8));
    let each = 1e9 / (LISTS * 17) as f64;
    let rust = each
        * best(|| {
            for n in 0..LISTS {
                let mut w = LogWriter::new(&overlays, n + 1);
                host::fill(&mut w, n, &l);
                black_box(w.drain());
            }
        });
    for (door, name) in DOORS {
        let ours =
            best(|| (0..LISTS).for_each(|n| assert_eq!(fill(&t, &mut list, &mut l, n, door), 0)));
        f.time(&format!("17 inserts a list, each{name}"), ours * each, rust);
    }
}

fn lookups(setting: &Setting, f: &mut Figures) {
    let s = Shared::with(255);
    host::place(&setting.folder, &[]);
    let log = host::open(&setting.folder);
    host::fill_shared(&log, 255, &Listed::new().data);
    let keys = keys(0, 255);
    let rust = rust_each(&keys, |k| {
        assert!(black_box(log.overlays().value_ref(value_table(), k)).is_some())
    });
    let (head, words, bytes) = (&lent(&s.head), &lent(&s.words), &lent(&s.bytes));
    for (door, name) in DOORS {
        let lookup = if door == Door::Kept { hongsathep_lookup_kept } else { hongsathep_lookup };
        let ours = rust_each(&keys, |k| {
            let (mut memory, mut place, mut length) = (0, 0, 0);
            let a = unsafe {
                lookup(1, head, words, bytes, 2, k, &mut memory, &mut place, &mut length)
            };
            assert_eq!((a, memory, length), (0, 2, VALUE as u64));
        });
        f.time(&format!("lookup of a value, 255 keys shared{name}"), ours, rust);
    }
}

fn ends(setting: &Setting, f: &mut Figures) {
    let t = Tables::three().words();
    let mut l = Listed::over(100);
    let mut list = [0u64; 38];
    let mut items: Vec<u64> = Vec::new();
    for n in 0..100 {
        assert_eq!(fill(&t, &mut list, &mut l, n, Door::Kept), 0);
        items.extend(&l.items);
    }
    let start = Shared::with(100);
    let mut s = start.clone();
    let (mut queues, mut out) = (vec![0u64; 331], vec![0u8; 60_000]);
    let rust = ending::rust(setting, 100) * 1e9;
    for (door, name) in DOORS {
        let end =
            if door == Door::Kept { hongsathep_end_record_kept } else { hongsathep_end_record };
        let ours = best_of(|| {
            s.set(&start);
            unsafe { hongsathep_queues_new(&open(&mut queues)) };
            let chunks = &lent(&l.chunks);
            let (head, words, bytes) =
                (&open(&mut s.head), &open(&mut s.words), &open(&mut s.bytes));
            seconds(|| {
                for (n, items) in (0..LISTS).zip(items.chunks(400).cycle()) {
                    let (mut size, mut source, mut file) = (0, 0, 0);
                    list[0] = n + 7;
                    let (t, list, items) = (&lent(&t), &lent(&list), &lent(items));
                    let (queues, out) = (&open(&mut queues), &open(&mut out));
                    let a = unsafe {
                        end(
                            t,
                            list,
                            items,
                            chunks,
                            head,
                            words,
                            bytes,
                            queues,
                            n + 8,
                            out,
                            &mut size,
                            &mut source,
                            &mut file,
                        )
                    };
                    assert_eq!((a, size), (0, RECORD as u64));
                }
            })
        });
        let ours = ours * 1e9 / LISTS as f64;
        f.time(&format!("end_record, 100 keys of each kind shared{name}"), ours, rust);
    }
}

pub fn rows(setting: &Setting, f: &mut Figures) {
    inserts(f);
    lookups(setting, f);
    ends(setting, f);
}

//! Lookups of values and chunks, in the shared overlays and in a list before them.
use super::super::*;
use super::figures::{best, Figures};
use super::host::{index_table, value_table};
use super::made::at_random;
use super::port::{self, Door, Listed, Shared, What, DOORS};
use super::tables::{Tables, VALUE};
use super::{host, Setting};
use std::hint::black_box;

/// Keys of a span at random, more than a processor can learn by heart.
pub fn keys(from: u64, span: u64) -> Vec<u64> {
    at_random(from, span, 20_000)
}

/// ns of one lookup, what comes before the loop taken off.
fn each(keys: &[u64], mut look: impl FnMut(&[u64])) -> f64 {
    let base = best(|| look(&keys[..1]));
    (best(|| look(keys)) - base) * 1e9 / (keys.len() - 1) as f64
}

pub fn rust_each(keys: &[u64], mut look: impl FnMut(u64)) -> f64 {
    best(|| keys.iter().for_each(|&k| look(black_box(k)))) * 1e9 / keys.len() as f64
}

/// ns of one lookup where so many keys are shared.
pub fn shared(most: u64, what: What, door: Door) -> f64 {
    let mut s = Shared::with(most as usize);
    let found = match what {
        What::WithIndex => 512,
        What::Value => 1,
        What::ValueRef => VALUE as u64,
    };
    each(&keys(0, most), |k| assert_eq!(port::look(&mut s, door, what, k), k.len() as u64 * found))
}

pub fn rows(setting: &Setting, f: &mut Figures) {
    let l = Listed::new();
    host::place(&setting.folder, &[]);
    let log = host::open(&setting.folder);
    host::fill_shared(&log, 255, &l.data);
    let mut dest = [0u8; VALUE];
    for (what, name) in
        [(What::WithIndex, "with_index"), (What::Value, "value"), (What::ValueRef, "value_ref")]
    {
        let rust = rust_each(&keys(0, 255), |i| {
            assert!(match what {
                What::WithIndex =>
                    black_box(log.overlays().with_index(index_table(), i, |c| c.0[0])).is_some(),
                What::Value => black_box(log.overlays().value(value_table(), i, &mut dest)),
                What::ValueRef => black_box(log.overlays().value_ref(value_table(), i)).is_some(),
            })
        });
        for (door, which) in DOORS {
            f.time(&format!("{name}, 255 keys shared{which}"), shared(255, what, door), rust);
        }
    }
    several(f, &log);
    listed(f, &log, l);
}

/// Places of values, so many keys a call: ns a key, beside the Rust's lookups one by one.
fn several(f: &mut Figures, log: &Log) {
    let keys = keys(0, 255);
    let rust = rust_each(&keys, |i| {
        assert!(black_box(log.overlays().value_ref(value_table(), i)).is_some())
    });
    let mut s = Shared::with(255);
    for each in [16, 64, 256] {
        let n = keys.len() / each * each;
        let pairs: Vec<u64> = keys[..n].iter().flat_map(|&k| [2, k]).collect();
        for (door, which) in DOORS {
            let ours = best(|| {
                assert_eq!(port::look_several(&mut s, door, 2 * each, &pairs), (n * VALUE) as u64)
            });
            f.time(
                &format!("places_of, {each} keys a call, 255 shared{which}"),
                ours * 1e9 / n as f64,
                rust,
            );
        }
    }
}

fn listed(f: &mut Figures, log: &Log, mut l: Listed) {
    let t = Tables::three().words();
    let mut s = Shared::with(255);
    let mut w = LogWriter::new(&log.overlays, 9);
    for k in 0..32 {
        w.insert_value(value_table(), 223 + k, l.data[..VALUE].to_vec());
    }
    let mut dest = [0u8; VALUE];
    for (name, from, span, found) in [
        ("found in the shared", 0, 223, true),
        ("found in the list", 223, 32, true),
        ("not found", 1000, 255, false),
    ] {
        let keys = keys(from, span);
        let rust = rust_each(&keys, |i| {
            assert_eq!(black_box(w.value(value_table(), i, &mut dest)), found)
        });
        for (door, which) in DOORS {
            let ours = each(&keys, |k| {
                assert_eq!(l.look(&t, &mut s, door, k), if found { k.len() as u64 } else { 0 })
            });
            f.time(&format!("value, a list of 32 first, {name}{which}"), ours, rust);
        }
    }
}

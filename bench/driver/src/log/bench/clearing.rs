//! 32 records of 13 keys in the overlays, and then the ends of their reading; each turn with other keys.
use super::super::*;
use super::figures::{best_of, seconds, Figures};
use super::made::RECORD;
use super::port::{self, Door, Listed, Shared, DOORS};
use super::tables::Tables;
use super::{host, Setting};

const RECORDS: u64 = 32;

/// Records as they lie in a log, and in the overlays.
struct Written {
    log: Vec<u8>,
    full: Shared,
    lists: Listed,
}

fn written(tables: &[u64], order: usize) -> Written {
    let mut lists = Listed::new();
    lists.places = lists.places[256 * order..256 * (order + 1)].to_vec();
    let mut full = Shared::new();
    let mut log = vec![0u8; RECORDS as usize * RECORD + 60_000];
    lists.write(tables, &mut full, Door::Tested, &mut log, RECORDS);
    assert_eq!(full.keys(), [128, 256, 32]);
    log.truncate(RECORDS as usize * RECORD);
    Written { log, full, lists }
}

/// The records' entries into the shared overlays of log.rs.
fn put_shared(log: &Log, l: &Listed) {
    for n in 0..RECORDS {
        let mut w = log.begin_record();
        host::fill(&mut w, n, l);
        let change = w.drain();
        let mut o = log.overlays.write();
        for (id, x) in change.local_index {
            o.index[id.log_index()].map.extend(x.map);
        }
        for (id, x) in change.local_values {
            o.value[id.log_index()].map.extend(x.map);
        }
        for (id, x) in change.local_ref_count {
            o.ref_count[id.log_index()].map.extend(x.map);
        }
    }
}

/// Seconds of log.rs: the ends alone, and with the reading that hands out what is to be cleared.
fn rust(setting: &Setting, all: &[Written]) -> (f64, f64) {
    let d = Tables::three();
    let mut turn = 0;
    let mut times = || {
        let w = &all[turn % all.len()];
        turn += 1;
        host::place(&setting.folder, &w.log);
        let log = host::open(&setting.folder);
        log.replay_next().unwrap();
        put_shared(&log, &w.lists);
        let mut read = Vec::with_capacity(RECORDS as usize);
        let reading = seconds(|| {
            for _ in 0..RECORDS {
                let mut r = log.read_next(true).unwrap().unwrap();
                assert!(host::read_record(&mut r, &d, None));
                let id = r.record_id();
                read.push((r.drain(), id));
            }
        });
        let ending = seconds(|| {
            for (cleared, id) in read {
                log.end_read(cleared, id);
            }
        });
        assert!(log.overlays.read().value[0].map.is_empty());
        (ending, reading + ending)
    };
    (best_of(|| times().0), best_of(|| times().1))
}

pub fn rows(setting: &Setting, f: &mut Figures) {
    let t = Tables::three().words();
    let all: Vec<Written> = (0..16).map(|order| written(&t, order)).collect();
    let (ends, both) = rust(setting, &all);
    let mut s = Shared::new();
    let mut turn = 0;
    let each = 1e9 / RECORDS as f64;
    for (door, name) in DOORS {
        let ours = best_of(|| {
            let w = &all[turn % all.len()];
            turn += 1;
            s.set(&w.full);
            let t = seconds(|| port::clear(&t, &w.log, &mut s, door, 33, RECORDS));
            assert_eq!(s.keys(), [0, 0, 0]);
            t
        });
        f.time(
            &format!("end_read, 13 keys{name} (Rust: with the reading)"),
            ours * each,
            both * each,
        );
        f.time(
            &format!("end_read, 13 keys{name} (Rust: `Cleared` at hand from reading)"),
            ours * each,
            ends * each,
        );
    }
}

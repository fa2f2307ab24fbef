//! Records ended: written, and their entries put over the shared ones.
use super::super::*;
use super::figures::{best_of, seconds, Figures};
use super::made::RECORD;
use super::port::{Door, Listed, Shared, DOORS};
use super::tables::Tables;
use super::writing::lists;
use super::{host, Setting};

const TIMES: u64 = 1000;

/// Seconds of one `end_record` where so many keys of each kind are shared, and the lists have keys of those.
pub fn ours(tables: &[u64], keys: u64, door: Door) -> f64 {
    let mut l = Listed::over(keys);
    let start = Shared::with(keys as usize);
    let mut s = start.clone();
    let mut out = vec![0u8; 60_000];
    let mut go = |times| {
        best_of(|| {
            s.set(&start);
            seconds(|| l.end(tables, &mut s, door, &mut out, times))
        })
    };
    let filling = go(1);
    (go(TIMES + 1) - filling) / TIMES as f64
}

/// The same of log.rs, into /dev/null.
pub fn rust(setting: &Setting, keys: u64) -> f64 {
    let l = Listed::over(keys);
    host::place(&setting.folder, &[]);
    let log = host::open(&setting.folder);
    host::fill_shared(&log, keys, &l.data);
    best_of(|| {
        let lists = lists(&log.overlays, 7, &l, TIMES);
        host::append_nowhere(&log);
        seconds(|| {
            for list in lists {
                log.next_record_id.store(list.record_id + 1, Ordering::Relaxed);
                log.end_record(list).unwrap();
            }
        })
    }) / TIMES as f64
}

/// Begun, 17 inserts, ended, up to 256 keys of a kind: seconds a record.
fn whole(setting: &Setting, l: &Listed) -> f64 {
    host::place(&setting.folder, &[]);
    let log = host::open(&setting.folder);
    best_of(|| {
        log.clear_replay_logs();
        log.next_record_id.store(1, Ordering::Relaxed);
        host::append_nowhere(&log);
        seconds(|| {
            for n in 0..TIMES {
                let mut w = log.begin_record();
                host::fill(&mut w, n, l);
                log.end_record(w.drain()).unwrap();
            }
        })
    }) / TIMES as f64
}

pub fn rows(setting: &Setting, f: &mut Figures) {
    let t = Tables::three().words();
    let mut l = Listed::new();
    let alone = rust(setting, 100) * 1e9;
    let begun = whole(setting, &l) * 1e9;
    for (door, name) in DOORS {
        f.time(
            &format!("end_record, 100 keys of each kind shared{name} (Rust: into /dev/null)"),
            ours(&t, 100, door) * 1e9,
            alone,
        );
    }
    let mut log = vec![0u8; TIMES as usize * RECORD + 60_000];
    let mut s = Shared::new();
    for (door, name) in DOORS {
        let ours = best_of(|| {
            s.set(&Shared::new());
            seconds(|| l.write(&t, &mut s, door, &mut log, TIMES))
        }) / TIMES as f64;
        f.time(
            &format!("begin_record, 17 inserts, end_record{name} (Rust: into /dev/null)"),
            ours * 1e9,
            begun,
        );
    }
}

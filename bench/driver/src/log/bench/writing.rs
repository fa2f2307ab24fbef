//! A list written as a record.
use super::super::*;
use super::figures::{best, best_of, seconds, Figures};
use super::made::RECORD;
use super::port::{Listed, DOORS};
use super::tables::Tables;
use super::{host, Setting};

const TIMES: u64 = 1000;

/// Lists of 17 inserts.
pub fn lists(overlays: &RwLock<LogOverlays>, first: u64, l: &Listed, times: u64) -> Vec<LogChange> {
    let list = |n| {
        let mut w = LogWriter::new(overlays, first + n);
        host::fill(&mut w, n, l);
        w.drain()
    };
    (0..times).map(list).collect()
}

pub fn rows(_: &Setting, f: &mut Figures) {
    let t = Tables::three().words();
    let mut out = vec![0u8; 60_000];
    let mut l = Listed::new();
    let overlays = RwLock::new(LogOverlays::with_columns(8));
    let rust = best_of(|| {
        let lists = lists(&overlays, 1, &l, TIMES);
        let mut file = host::nowhere();
        let mut kept = Vec::with_capacity(TIMES as usize);
        seconds(|| {
            for list in lists {
                kept.push(list.flush_to_file(&mut file).unwrap());
            }
        })
    });
    let call = best(|| {
        let mut file = host::nowhere();
        for _ in 0..TIMES {
            file.write_all(&out[..RECORD]).unwrap();
            file.flush().unwrap();
        }
    });
    let each = 1e9 / TIMES as f64;
    for (door, name) in DOORS {
        let ours = best(|| l.flush(&t, door, &mut out, TIMES)) * each;
        f.time(&format!("a record{name} (Rust: into a BufWriter on /dev/null)"), ours, rust * each);
        f.time(
            &format!("a record{name} (Rust: without the write call)"),
            ours,
            (rust - call) * each,
        );
    }
}

//! The file queues.
use super::figures::{best, best_of, seconds, Figures};
use super::made::{log_of, Mix, RECORD};
use super::port::{self, Listed, DOORS};
use super::tables::Tables;
use super::{host, Setting};

const TIMES: u64 = 1000;

/// flush_one, the last read_next and clean_logs, on files in memory.
fn rust(setting: &Setting) -> f64 {
    host::place(&setting.folder, &[]);
    let log = host::open(&setting.folder);
    let d = Tables::three();
    let l = Listed::new();
    best_of(|| {
        let mut sum = 0.0;
        for n in 0..TIMES {
            let mut w = log.begin_record();
            host::fill(&mut w, n, &l);
            log.end_record(w.drain()).unwrap();
            sum += seconds(|| assert!(log.flush_one(0).unwrap()));
            let mut r = log.read_next(true).unwrap().unwrap();
            assert!(host::read_record(&mut r, &d, None));
            drop(r);
            sum += seconds(|| {
                assert!(log.read_next(true).unwrap().is_none());
                log.clean_logs(1).unwrap();
            });
        }
        sum
    })
}

pub fn rows(setting: &Setting, f: &mut Figures) {
    let (log, _) = log_of(Mix::All, RECORD);
    let rust = rust(setting);
    for (door, name) in DOORS {
        let ours = best(|| port::files(&log, door, TIMES));
        let each = 1e9 / TIMES as f64;
        f.time(
            &format!("5 calls{name} (Rust: 3 of them, on files in memory)"),
            ours * each,
            rust * each,
        );
    }
}

//! Steps through a log, beside LogReader over a file in memory.
use super::figures::{best, Figures};
use super::made::{log_of, Mix};
use super::port::Door;
use super::tables::Tables;
use super::{by_hand, host, port, Setting};

pub fn rows(setting: &Setting, f: &mut Figures) {
    records(setting, f);
    masks(setting, f);
}

/// LogReader's `next`, and `read` of each payload: seconds.
fn rust(setting: &Setting, d: &Tables, log: &[u8], records: u64) -> f64 {
    host::place(&setting.folder, log);
    best(|| host::each_record(&setting.folder, records, |r| assert!(host::read_record(r, d, None))))
}

fn records(setting: &Setting, f: &mut Figures) {
    let (log, records) = log_of(Mix::All, setting.bytes);
    let mb = log.len() as f64 / 1e6;
    let d = Tables::three();
    let (t, wide) = (d.words(), d.crowded().words());
    let ours = |t: &[u64], validate, door| {
        mb / best(|| assert_eq!(port::next(t, &log, validate, door), records * 15))
    };
    let rust = mb / rust(setting, &d, &log, records);
    f.speed(
        "next, 789-byte records, validating (Rust: LogReader, a file in memory)",
        ours(&t, true, Door::Tested),
        rust,
    );
    f.speed("next, the same, second door", ours(&t, true, Door::Kept), rust);
    f.our_speed("next, the same, not validating", ours(&t, false, Door::Tested));
    f.our_speed("next, the same, not validating, second door", ours(&t, false, Door::Kept));
    f.speed("next, the same, validating, 16 tables", ours(&wide, true, Door::Tested), rust);
    let check = mb / best(|| port::check(&t, &log, records));
    let slices = mb / best(|| assert_eq!(by_hand::run(&log, &d, None), (1, log.len(), records)));
    f.speed("check_record_in, the same (Rust: by hand on slices, crc32fast)", check, slices);
}

fn masks(setting: &Setting, f: &mut Figures) {
    let d = Tables::three();
    let t = d.words();
    for slots in [1, 8, 64] {
        let (log, records) = log_of(Mix::Slots(slots), setting.bytes);
        let mb = log.len() as f64 / 1e6;
        let ours = mb / best(|| assert_eq!(port::next(&t, &log, true, Door::Tested), records * 8));
        f.speed(
            &format!("next, masks of {slots} bits (Rust: LogReader)"),
            ours,
            mb / rust(setting, &d, &log, records),
        );
    }
}

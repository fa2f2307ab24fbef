//! Runs over a log into an image, beside a host of log.rs and beside plain Rust.
use super::figures::{best, Figures};
use super::made::{log_of, Mix, RECORD};
use super::tables::Tables;
use super::{by_hand, host, port, Setting};
use std::hint::black_box;

pub fn rows(setting: &Setting, f: &mut Figures) {
    let (three, small) = (Tables::three(), Tables::small_values());
    records(setting, f, "789-byte records", Mix::All, &three);
    share(setting, f);
    records(setting, f, "789-byte records, 16 tables", Mix::All, &three.crowded());
    records(setting, f, "values of 20 bytes", Mix::SmallValues, &small);
    records(setting, f, "values of 20 bytes, 16 tables", Mix::SmallValues, &small.crowded());
    for slots in [1, 8, 64] {
        records(setting, f, &format!("masks of {slots} bits"), Mix::Slots(slots), &three);
    }
}

fn records(setting: &Setting, f: &mut Figures, name: &str, mix: Mix, d: &Tables) {
    let (log, records) = log_of(mix, setting.bytes);
    let mb = log.len() as f64 / 1e6;
    let t = d.words();
    let (mut a, mut b, mut c) = (d.image(), d.image(), d.image());
    host::place(&setting.folder, &log);
    let ours = mb / best(|| port::run(&t, &log, records, &mut a));
    let once = mb
        / best(|| {
            host::each_record(&setting.folder, records, |r| {
                assert!(host::read_record(r, d, Some(&mut b)))
            })
        });
    let twice = mb
        / best(|| {
            host::each_record(&setting.folder, records, |r| {
                assert!(host::read_record(r, d, None));
                r.reset().unwrap();
                r.next().unwrap();
                assert!(host::read_record(r, d, Some(&mut b)));
            })
        });
    let slices =
        mb / best(|| assert_eq!(by_hand::run(&log, d, Some(&mut c)), (1, log.len(), records)));
    assert!(a == b && a == c, "the images");
    f.speed(&format!("{name} (Rust: LogReader, checked, reset, applied)"), ours, twice);
    f.speed(&format!("{name} (Rust: LogReader, applied unchecked)"), ours, once);
    f.speed(&format!("{name} (Rust: by hand on slices, crc32fast)"), ours, slices);
}

/// The checksum's part of a run: what it takes over the same records alone.
fn share(setting: &Setting, f: &mut Figures) {
    let (log, records) = log_of(Mix::All, setting.bytes);
    let t = Tables::three().words();
    let mut image = Tables::three().image();
    let run = best(|| port::run(&t, &log, records, &mut image));
    let sums = best(|| {
        for r in log.chunks(RECORD) {
            black_box(port::checksum(black_box(&r[..RECORD - 4])));
        }
    });
    f.our_time("789-byte records, the checksum's share of a run, %", 100.0 * sums / run);
}

//! Growth with bytes, keys and tables.
use super::figures::{best, Figures};
use super::made::{log_of, Mix};
use super::port::{self, Door, Listed, What, DOORS};
use super::tables::Tables;
use super::{ending, looking, Setting};

pub fn rows(setting: &Setting, f: &mut Figures) {
    bytes(f);
    keys(setting, f);
    tables(f);
}

fn bytes(f: &mut Figures) {
    let d = Tables::three();
    let (t, mut image) = (d.words(), d.image());
    for mb in [1usize, 4, 16] {
        let (log, records) = log_of(Mix::All, mb * 1_000_000);
        let s = best(|| port::run(&t, &log, records, &mut image));
        f.our_speed(&format!("run over {mb} MB, MB/s"), log.len() as f64 / 1e6 / s);
    }
}

fn keys(setting: &Setting, f: &mut Figures) {
    let t = Tables::three().words();
    for keys in [10, 100, 250] {
        let rust = ending::rust(setting, keys);
        for (door, name) in DOORS {
            let ours = ending::ours(&t, keys, door);
            f.time(
                &format!("end_record, {keys} keys of each kind shared{name}, ns"),
                ours * 1e9,
                rust * 1e9,
            );
        }
    }
    for keys in [15, 63, 255] {
        for (door, name) in DOORS {
            f.our_time(
                &format!("value_ref, {keys} keys shared{name}, ns"),
                looking::shared(keys, What::ValueRef, door),
            );
        }
    }
}

fn tables(f: &mut Figures) {
    let small = Tables::small_values();
    let (log, records) = log_of(Mix::SmallValues, 4_000_000);
    let mb = log.len() as f64 / 1e6;
    for (name, d) in [("1 table", small.clone()), ("16 tables", small.crowded())] {
        let (t, mut image) = (d.words(), d.image());
        f.our_speed(
            &format!("run, values of 20 bytes, {name}, MB/s"),
            mb / best(|| port::run(&t, &log, records, &mut image)),
        );
        let next = best(|| assert_eq!(port::next(&t, &log, true, Door::Tested), records * 27));
        f.our_speed(&format!("next, values of 20 bytes, {name}, MB/s"), mb / next);
    }
    let mut l = Listed::new();
    for (name, d) in [("3 tables", Tables::three()), ("16 tables", Tables::three().crowded())] {
        let t = d.words();
        for (door, which) in DOORS {
            f.our_time(
                &format!("an insert of 17, {name}{which}, ns"),
                best(|| l.fill(&t, door, 1000)) * 1e6 / 17.0,
            );
            f.our_time(
                &format!("end_record, 100 keys, {name}{which}, ns"),
                ending::ours(&t, 100, door) * 1e9,
            );
        }
    }
}

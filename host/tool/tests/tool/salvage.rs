//! `salvage`.

use crate::{
    running::{files, folder, log, long_record, once_free, run, Said},
    sample::{directory, record, Scratch},
};
use std::{fs, os::unix::fs::symlink};

fn salvage(scratch: &Scratch, bytes: &[u8]) -> Said {
    fs::write(scratch.path().join("log"), bytes).unwrap();
    run(scratch.path(), &["salvage", "directory", "log", "out"])
}

/// That nothing is written, and it is said.
fn leaves_all(scratch: &Scratch, arguments: &[&str], status: i32, words: &str) {
    let before = files(scratch.path());
    let said = run(scratch.path(), &[&["salvage"], arguments].concat());
    said.fails_with(status, words);
    assert!(said.err.ends_with("; nothing was written\n"), "{said:?}");
    assert!(files(scratch.path()) == before, "{arguments:?}");
}

/// The list and the output are what the call says.
fn agrees(bytes: &[u8]) -> Said {
    let scratch = folder();
    let said = salvage(&scratch, bytes);
    let due = hongsathep::salvage(&directory(), bytes).unwrap();
    assert_eq!((said.status, said.err.as_str()), (Some(0), ""));
    let list: Vec<String> = due.lines.iter().map(ToString::to_string).collect();
    let printed: Vec<&str> = said.out.lines().collect();
    assert_eq!(printed[..list.len()], list);
    let files = files(scratch.path());
    assert!(files["out"] == due.records && files["log"] == bytes && files.len() == 3);
    said
}

#[test]
fn good_cut_damaged_and_empty() {
    let log = log(1..=5);
    let words = format!("log: nothing is lost\nout: written, 5 records, {} bytes\n", log.len());
    assert!(agrees(&log).out.ends_with(&words));
    agrees(&[]);
    for place in (0..log.len()).step_by(log.len() / 100 + 1) {
        agrees(&log[..place]);
        let mut damaged = log.clone();
        damaged[place] ^= 4;
        agrees(&damaged);
    }
}

#[test]
fn what_is_lost_in_words() {
    let parts: Vec<Vec<u8>> = (1..=3).map(|id| record(&directory(), id)).collect();
    let mut log = [&[9; 5], &parts.concat()[..], &[2; 7]].concat();
    let (second, third) = (5 + parts[0].len(), 5 + parts[0].len() + parts[1].len());
    log[third - 1] ^= 1;
    let said = agrees(&log);
    let lost = 5 + parts[1].len() + 7;
    let words = format!(
        "log: {lost} of {} bytes are lost\n\
         log: 5 bytes from byte 0 on, before the record of id 1: answer 3 (unknown tag) at byte 0\n\
         log: {} bytes from byte {second} on, between the records of ids 1 and 3: answer 8 (checksum differs) at byte {}\n\
         log: 7 bytes from byte {} on, behind the record of id 3: answer 1 (end of log) at byte {}\n\
         out: written, 2 records, {} bytes\n",
        log.len(),
        parts[1].len(),
        third - 5,
        log.len() - 7,
        log.len() - 7,
        log.len() - lost
    );
    assert!(said.out.ends_with(&words), "{said:?}\n{words}");
}

#[test]
fn more_than_64_lines() {
    let scratch = folder();
    let long: Vec<u8> = (1..=65).flat_map(|id| record(&directory(), id)).collect();
    fs::write(scratch.path().join("log"), &long).unwrap();
    leaves_all(&scratch, &["directory", "log", "out"], 9, "log: answer 9 (no room in a list, overlay or the file set)");
    let end = long.len() - record(&directory(), 65).len();
    assert_eq!(salvage(&scratch, &long[..end]).status, Some(0));
}

/// Three megabytes, a byte in the middle damaged.
#[test]
fn a_long_log() {
    let mut log: Vec<u8> = (1..=60).flat_map(long_record).collect();
    let middle = log.len() / 2 + 30_000;
    log[middle] ^= 1;
    assert!(agrees(&log).out.contains("\nout: written, 59 records, "));
}

#[test]
fn nothing_is_overwritten() {
    let scratch = folder();
    assert_eq!(salvage(&scratch, &log(1..=2)).status, Some(0));
    leaves_all(&scratch, &["directory", "log", "out"], 73, "out: it is there already");
    leaves_all(&scratch, &["directory", "log", "log"], 64, "log: log would be written over it");
    leaves_all(&scratch, &["directory", "log", "."], 73, ".: it is there already");
    symlink("nowhere", scratch.path().join("link")).unwrap();
    leaves_all(&scratch, &["directory", "log", "link"], 73, "link: it is there already");
    fs::rename(scratch.path().join("log"), scratch.path().join("other.new")).unwrap();
    leaves_all(&scratch, &["directory", "other.new", "other"], 64, "other.new: other would be written over it");
}

#[test]
fn files_that_cannot_be_had() {
    let scratch = folder();
    fs::write(scratch.path().join("log"), log(1..=2)).unwrap();
    leaves_all(&scratch, &["directory", "missing", "out"], 66, "can't read missing: No such file");
    leaves_all(&scratch, &["directory", ".", "out"], 66, "can't read .: not a regular file");
    leaves_all(&scratch, &["directory", "/dev/zero", "out"], 66, "can't read /dev/zero: not a regular file");
    leaves_all(&scratch, &["directory", "/proc/self/mem", "out"], 66, "/proc/self/mem: ");
    leaves_all(&scratch, &["directory", "log", "missing/out"], 73, "can't open missing/out.new: ");
    let held = hongsathep::Replacement::begin(scratch.path().join("out")).unwrap();
    leaves_all(&scratch, &["directory", "log", "out"], 75, "out.new: another run is at work on it");
    drop(held);
    // What a killed run left.
    fs::write(scratch.path().join("out.new"), [7; 99]).unwrap();
    let salvage = || run(scratch.path(), &["salvage", "directory", "log", "out"]);
    assert_eq!(once_free(salvage).status, Some(0));
    assert!(!scratch.path().join("out.new").exists());
}

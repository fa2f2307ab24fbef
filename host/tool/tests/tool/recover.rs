//! `recover`.

use crate::{
    running::{behind, chunks, files, folder, log, old_image, once_free, run, Said, TOOL},
    sample::{directory, record, Scratch},
};
use hongsathep::Image;
use std::{
    fs::{self, File, Permissions},
    os::unix::fs::{symlink, PermissionsExt},
    process::Command,
};

/// A folder with a directory, an image, and these log files.
fn with(logs: &[(&str, Vec<u8>)]) -> Scratch {
    let scratch = folder();
    fs::write(scratch.path().join("image"), old_image()).unwrap();
    for (name, bytes) in logs {
        fs::write(scratch.path().join(name), bytes).unwrap();
    }
    scratch
}

fn recover(scratch: &Scratch, arguments: &[&str]) -> Said {
    run(scratch.path(), &[&["recover"], arguments].concat())
}

/// That a run leaves everything as it was, and says so.
fn leaves_all(scratch: &Scratch, arguments: &[&str], status: i32, words: &str) {
    let before = files(scratch.path());
    let said = recover(scratch, arguments);
    said.fails_with(status, words);
    assert!(said.err.ends_with("; nothing was written\n"), "{said:?}");
    assert!(files(scratch.path()) == before, "{arguments:?}");
}

/// That the image alone has changed, to these bytes.
fn leaves(scratch: &Scratch, image: &[u8], run: impl FnOnce() -> Said) -> Said {
    let mut due = files(scratch.path());
    let said = run();
    due.insert("image".to_string(), image.to_vec());
    assert!(files(scratch.path()) == due, "{said:?}");
    said
}

#[test]
fn one_file() {
    let log = log(1..=3);
    let scratch = with(&[("log", log.clone())]);
    let said = leaves(&scratch, &behind(&log, 1), || recover(&scratch, &["directory", "image", "log"]));
    let due = format!("log: 3 records, ids 1 to 3; ends cleanly at byte {}\nimage: written, 5440 bytes\n", log.len());
    assert_eq!((said.status, said.out, said.err.as_str()), (Some(0), due, ""));
}

/// Whatever is cut or damaged, the image has the whole records before.
#[test]
fn cut_and_damaged() {
    let log = log(1..=3);
    let scratch = with(&[]);
    let tried = |bytes: &[u8]| {
        fs::write(scratch.path().join("image"), old_image()).unwrap();
        fs::write(scratch.path().join("log"), bytes).unwrap();
        let ran = Image::new(&directory()).run(bytes, 0, 1);
        let said =
            leaves(&scratch, &behind(bytes, 1), || recover(&scratch, &["--first", "1", "directory", "image", "log"]));
        let number = ran.answer.number() as i32;
        // Files of less than 9 bytes aren't read.
        assert_eq!(said.status, Some(if number == 1 || bytes.len() < 9 { 0 } else { number }), "{ran:?} {said:?}");
        let kept = if ran.count == 0 { "the image is as it was" } else { "the image has the records before it" };
        assert_eq!(said.err.is_empty(), said.status == Some(0));
        assert!(said.err.is_empty() || said.err.ends_with(&format!("; {kept}\n")), "{said:?}");
    };
    for place in (0..log.len()).step_by(log.len() / 120 + 1).chain(0..12) {
        tried(&log[..place]);
        let mut damaged = log.clone();
        damaged[place] ^= 4;
        tried(&damaged);
    }
}

#[test]
fn words_of_a_fault() {
    let mut log = log(1..=3);
    let (start, end) = (record(&directory(), 1).len(), log.len() - record(&directory(), 3).len());
    log[end - 1] ^= 1;
    let scratch = with(&[("log", log)]);
    let said = recover(&scratch, &["directory", "image", "log"]);
    let line = format!("log: 1 record, id 1, up to byte {start}\nimage: written, 5440 bytes\n");
    let fault = format!(
        "hongsathep: log: answer 8 (checksum differs): the record at byte {start} isn't taken, the fault is at byte {}; \
         the image has the records before it\n",
        end - 5
    );
    assert_eq!(said, Said { status: Some(8), out: line, err: fault });
}

#[test]
fn new_images() {
    let log = log(1..=3);
    let scratch = with(&[("log", log.clone())]);
    leaves_all(&scratch, &["--new", "directory", "image", "log"], 73, "image: it is there already");
    symlink("nowhere", scratch.path().join("link")).unwrap();
    leaves_all(&scratch, &["--new", "directory", "link", "log"], 73, "link: it is there already");
    leaves_all(&scratch, &["--new", "directory", "log/image", "log"], 73, "log/image: Not a directory");
    fs::remove_file(scratch.path().join("image")).unwrap();
    leaves_all(&scratch, &["directory", "image", "log"], 66, "image: there is no such file (--new ");
    let mut image = Image::new(&directory());
    image.run(&log, 0, 1);
    let said = leaves(&scratch, image.bytes(), || recover(&scratch, &["--new", "directory", "image", "log"]));
    assert_eq!(said.status, Some(0));
    leaves_all(&scratch, &["--new", "directory", "missing/image", "log"], 73, "can't open missing/image.new: ");
}

#[test]
fn dry_runs_write_nothing() {
    let log = log(1..=3);
    let scratch = with(&[("log", log.clone()), ("cut", log[..log.len() - 1].to_vec())]);
    let looks = || (files(scratch.path()), fs::metadata(scratch.path()).unwrap().modified().unwrap());
    let before = looks();
    let said = recover(&scratch, &["--dry-run", "directory", "image", "log"]);
    assert!(said.status == Some(0) && said.out.ends_with("image: not written, a dry run\n"), "{said:?}");
    let said = recover(&scratch, &["--dry-run", "directory", "image", "cut"]);
    said.fails_with(2, "; a dry run, nothing was written\n");
    let said = recover(&scratch, &["--dry-run", "--new", "directory", "other", "log"]);
    assert_eq!(said.status, Some(0));
    assert!(looks() == before);
}

#[test]
fn from_a_position() {
    let log = log(1..=3);
    let (second, third) = (record(&directory(), 1).len(), log.len() - record(&directory(), 3).len());
    let scratch = with(&[("log", log.clone()), ("log1", log.clone())]);
    let from = second.to_string();
    let due = behind(&log[second..], 2);
    let said = leaves(&scratch, &due, || recover(&scratch, &["--from", &from, "directory", "image", "log"]));
    assert!(
        said.out.starts_with(&format!("log: 2 records, ids 2 to 3; ends cleanly at byte {}\n", log.len())),
        "{said:?}"
    );
    let mut damaged = log.clone();
    damaged[log.len() - 1] ^= 1;
    fs::write(scratch.path().join("log"), damaged).unwrap();
    let said = recover(&scratch, &["--from", &from, "directory", "image", "log"]);
    said.fails_with(8, &format!("the record at byte {third} isn't taken, the fault is at byte {}", log.len() - 5));
    let end = log.len().to_string();
    let said = recover(&scratch, &["--from", &end, "directory", "image", "log"]);
    assert_eq!(said.status, Some(0), "{said:?}");
    let beyond = (log.len() + 1).to_string();
    leaves_all(&scratch, &["--from", &beyond, "directory", "image", "log"], 14, "log: answer 14 (");
    leaves_all(
        &scratch,
        &["--from", "0", "directory", "image", "log", "log1"],
        64,
        "--from needs a log that is one file",
    );
    leaves_all(&scratch, &["--from", "0", "directory", "image", "."], 64, "--from needs a log that is one file");
}

#[test]
fn first_ids() {
    let scratch = with(&[("log", log([8, 9]))]);
    let said = recover(&scratch, &["--first", "7", "directory", "image", "log"]);
    said.fails_with(5, "id 7 is expected and 8 stands there; the image is as it was");
    assert_eq!(files(scratch.path())["image"], old_image());
    assert_eq!(recover(&scratch, &["--first", "8", "directory", "image", "log"]).status, Some(0));
}

/// As `open` finds them: by first ids, whatever the names say.
#[test]
fn a_folder_of_files() {
    let logs = [
        ("log10", log(1..=2)),
        ("log0", log(5..=6)),
        ("log2", log(3..=4)),
        ("log7", vec![1, 2, 3]),
        ("notes", vec![9; 99]),
    ];
    let scratch = with(&[]);
    let logs_folder = scratch.path().join("logs");
    fs::create_dir(&logs_folder).unwrap();
    logs.iter().for_each(|(name, bytes)| fs::write(logs_folder.join(name), bytes).unwrap());
    fs::write(logs_folder.join("log07"), log([9])).unwrap();
    fs::create_dir(logs_folder.join("log5")).unwrap();
    symlink("log0", logs_folder.join("log99")).unwrap();
    let before = files(&logs_folder);
    let due = behind(&log(1..=6), 1);
    let said = leaves(&scratch, &due, || recover(&scratch, &["directory", "image", "logs"]));
    let names: Vec<&str> = said.out.lines().map(|line| line.split(':').next().unwrap()).collect();
    assert_eq!(names, ["logs/log7", "logs/log10", "logs/log2", "logs/log0", "image"]);
    assert!(files(&logs_folder) == before);
    // The same files named.
    fs::write(scratch.path().join("image"), old_image()).unwrap();
    leaves(&scratch, &due, || recover(&scratch, &["directory", "image", "logs/log0", "logs/log10", "logs/log2"]));
}

/// Behind a file that doesn't end cleanly nothing is replayed.
#[test]
fn a_gap_between_files() {
    let mut cut = log(3..=4);
    cut.pop();
    let scratch = with(&[("a", log(1..=2)), ("b", cut), ("c", log(5..=6)), ("d", log(4..=4))]);
    let due = behind(&log(1..=3), 1);
    let said = leaves(&scratch, &due, || recover(&scratch, &["directory", "image", "c", "b", "a"]));
    said.fails_with(2, "b: answer 2 (the bytes end inside a begun record)");
    assert!(said.out.contains("\nc: not replayed\n"), "{said:?}");
    let said = recover(&scratch, &["directory", "image", "a", "d"]);
    said.fails_with(5, "d: answer 5 (another id than the expected one): the record at byte 0 isn't taken, id 3 is expected and 4 stands");
}

#[test]
fn sets_of_files_that_open_refuses() {
    let scratch = with(&[]);
    let logs = scratch.path().join("logs");
    fs::create_dir(&logs).unwrap();
    (0..65).for_each(|number| fs::write(logs.join(format!("log{number}")), log([number + 1])).unwrap());
    leaves_all(&scratch, &["directory", "image", "logs"], 9, "logs: answer 9 (");
    (1..65).for_each(|number| fs::remove_file(logs.join(format!("log{number}"))).unwrap());
    fs::rename(logs.join("log0"), logs.join("log4294967295")).unwrap();
    leaves_all(&scratch, &["directory", "image", "logs"], 12, "logs: answer 12 (");
    // A folder without logs holds no record.
    fs::remove_file(logs.join("log4294967295")).unwrap();
    let said = recover(&scratch, &["directory", "image", "logs"]);
    assert_eq!((said.status, said.out.as_str()), (Some(0), "image: not written, there is nothing new\n"));
}

#[test]
fn images_and_logs_that_do_not_fit() {
    let scratch = with(&[("log", log(1..=3)), ("short", vec![0; 5439])]);
    leaves_all(
        &scratch,
        &["directory", "short", "log"],
        13,
        "short: it has 5439 bytes, the directory's image 5440 (answer 13)",
    );
    leaves_all(&scratch, &["directory", ".", "log"], 66, ".: not a regular file");
    leaves_all(&scratch, &["directory", "/dev/null", "log"], 66, "/dev/null: not a regular file");
    leaves_all(&scratch, &["directory", "image", "missing"], 66, "can't read missing: ");
    leaves_all(&scratch, &["directory", "image", "log", "."], 66, "can't read .: not a regular file");
    leaves_all(&scratch, &["directory", "image", "/dev/zero"], 66, "can't read /dev/zero: not a regular file");
    leaves_all(&scratch, &["missing", "image", "log"], 66, "missing: No such file");
    let huge = File::create(scratch.path().join("huge")).unwrap();
    huge.set_len(1 << 40).unwrap();
    let said = recover(&scratch, &["directory", "huge", "log"]);
    said.fails_with(13, "huge: it has 1099511627776 bytes, the directory's image 5440");
    let said = recover(&scratch, &["directory", "image", "huge"]);
    said.fails_with(3, "huge: answer 3 (unknown tag): the record at byte 0 isn't taken; the image is as it was");
}

/// No file that is read is written over.
#[test]
fn places_that_are_taken() {
    let log = log(1..=3);
    let scratch = with(&[("image.new", log)]);
    leaves_all(&scratch, &["directory", "image", "image.new"], 64, "image.new: image would be written over it");
    fs::write(scratch.path().join("log"), old_image()).unwrap();
    leaves_all(&scratch, &["directory", "log", "log"], 64, "log: log would be written over it");
    fs::remove_file(scratch.path().join("image.new")).unwrap();
    fs::create_dir(scratch.path().join("image.new")).unwrap();
    leaves_all(&scratch, &["directory", "image", "log"], 73, "image.new: not a regular file");
    fs::remove_dir(scratch.path().join("image.new")).unwrap();
    symlink("directory", scratch.path().join("image.new")).unwrap();
    leaves_all(&scratch, &["directory", "image", "log"], 64, "directory: image would be written over it");
}

/// What a killed run left is taken over; links and permissions stay.
#[test]
fn what_stays_of_an_image() {
    let log = log(1..=3);
    let scratch = with(&[("log", log.clone()), ("real.new", vec![7; 9999])]);
    let place = |name: &str| scratch.path().join(name);
    fs::rename(place("image"), place("real")).unwrap();
    symlink("real", place("image")).unwrap();
    fs::set_permissions(place("real"), Permissions::from_mode(0o640)).unwrap();
    assert_eq!(recover(&scratch, &["directory", "image", "log"]).status, Some(0));
    assert!(fs::read(place("real")).unwrap() == behind(&log, 1));
    assert!(fs::symlink_metadata(place("image")).unwrap().is_symlink());
    assert_eq!(fs::metadata(place("real")).unwrap().permissions().mode() & 0o777, 0o640);
    assert!(!place("real.new").exists());
}

/// A device that is full, as far as one run is concerned.
#[test]
fn no_room_for_the_image() {
    let scratch = with(&[("log", log(1..=3))]);
    let before = files(scratch.path());
    let script = format!("trap '' XFSZ; ulimit -f 1; exec {TOOL} recover directory image log");
    let output = Command::new("sh").current_dir(scratch.path()).args(["-c", &script]).output().unwrap();
    Said::of(output).fails_with(74, "can't write ");
    assert!(files(scratch.path()) == before);
}

/// The largest image, and a long log in a room that hardly holds more than the image.
#[test]
fn the_largest_image() {
    let scratch = Scratch::new();
    let text: String = (0..16).map(|number| format!("refcount {number} 7 4096\n")).collect();
    fs::write(scratch.path().join("directory"), text).unwrap();
    let log: Vec<u8> = (1..=1500).flat_map(|id| chunks(id, 6, 1024, 100)).collect();
    fs::write(scratch.path().join("log"), &log).unwrap();
    let script = format!("ulimit -v 130000; exec {TOOL} recover --new directory image log");
    let output = Command::new("sh").current_dir(scratch.path()).args(["-c", &script]).output().unwrap();
    let said = Said::of(output);
    assert_eq!((said.status, said.err.as_str()), (Some(0), ""));
    let mut due = vec![0; 64 << 20];
    let chunk = 3 * 4096 * 1024 + 2 * 1024;
    due[chunk..chunk + 1024].fill(1500u64 as u8);
    assert!(fs::read(scratch.path().join("image")).unwrap() == due);
}

/// A folder that a host has open.
#[test]
fn a_folder_in_use() {
    let scratch = with(&[]);
    let logs = scratch.path().join("logs");
    let mut image = Image::new(&directory());
    let host = hongsathep::Log::open(&logs, &directory()).unwrap().recover(&mut image).unwrap();
    leaves_all(&scratch, &["directory", "image", "logs"], 75, "logs/lock: another run is at work on it");
    drop(host);
    assert_eq!(once_free(|| recover(&scratch, &["directory", "image", "logs"])).status, Some(0));
}

//! `dump`, and logs built anew from what it prints.

use crate::{
    running::{chunks, command, folder, log, run},
    sample::directory,
};
use hongsathep::{checksum, ChangeList, IndexTableId, LogReader, RefCountTableId, ValueTableId};
use std::{fs, io::Read, process::Stdio};

/// A log's bytes from a dump's lines, by document 01's table of tags. In JSON the names are in quotation marks; without
/// them, braces and colons both forms are words.
fn rebuilt(dump: &str) -> Vec<u8> {
    let mut log = Vec::new();
    let mut start = 0;
    for line in dump.lines() {
        let Some(line) = Line::of(line) else { continue };
        assert_eq!(line.at, log.len() as u64);
        match line.action.as_str() {
            "begin" => {
                start = log.len();
                log.push(1);
                log.extend(line.number("id").to_le_bytes());
            }
            "index" | "refcount" => {
                log.push(if line.action == "index" { 2 } else { 6 });
                line.key(&mut log);
                log.extend(line.mask().to_le_bytes());
                log.extend(line.bytes());
            }
            "value" => {
                log.push(3);
                line.key(&mut log);
                assert_eq!(line.bytes().len() as u64, line.number("length"));
                log.extend(line.bytes());
            }
            "end" => {
                log.push(4);
                log.extend(checksum(&log[start..]).to_le_bytes());
            }
            drop => {
                log.push(if drop == "drop-index" { 5 } else { 7 });
                log.extend((line.number("table") as u16).to_le_bytes());
            }
        }
    }
    log
}

/// An action's line.
struct Line {
    at: u64,
    action: String,
    words: Vec<String>,
}

impl Line {
    fn of(line: &str) -> Option<Line> {
        let plain: String = match line.strip_prefix("{\"at\":") {
            // In a list of slots a comma stays.
            Some(json) => {
                let mut is_inside = false;
                let spaced = |c: char| {
                    is_inside = c == '[' || is_inside && c != ']';
                    match c {
                        ',' if is_inside => ',',
                        ',' | ':' | '{' | '}' | '"' | '[' | ']' => ' ',
                        c => c,
                    }
                };
                json.chars().map(spaced).collect::<String>().replacen("action ", "", 1)
            }
            None => line.to_string(),
        };
        let mut words = plain.split_whitespace().map(str::to_string);
        let at = words.next()?.parse().ok()?;
        Some(Line { at, action: words.next()?, words: words.collect() })
    }

    fn word(&self, name: &str) -> Option<&str> {
        let place = self.words.iter().position(|word| word == name)?;
        self.words.get(place + 1).map(String::as_str)
    }

    fn number(&self, name: &str) -> u64 {
        self.word(name).unwrap().parse().unwrap()
    }

    fn key(&self, log: &mut Vec<u8>) {
        log.extend((self.number("table") as u16).to_le_bytes());
        log.extend(self.number("index").to_le_bytes());
    }

    fn mask(&self) -> u64 {
        let slots = self.word("slots").filter(|slots| !["none", "bytes"].contains(slots)).unwrap_or_default();
        let ends = |run: &str| match run.split_once('-') {
            Some((from, to)) => from.parse::<u32>().unwrap()..=to.parse().unwrap(),
            None => run.parse().unwrap()..=run.parse().unwrap(),
        };
        slots.split(',').filter(|run| !run.is_empty()).flat_map(ends).fold(0, |mask, slot| mask | 1 << slot)
    }

    fn bytes(&self) -> Vec<u8> {
        let hex = self.word("bytes").unwrap_or_default();
        (0..hex.len()).step_by(2).map(|at| u8::from_str_radix(&hex[at..at + 2], 16).unwrap()).collect()
    }
}

/// Both forms of a log's dump give its whole actions again.
fn builds_again(bytes: &[u8]) {
    let scratch = folder();
    fs::write(scratch.path().join("log"), bytes).unwrap();
    let mut reader = LogReader::new(&directory(), bytes);
    let error = loop {
        if let Err(error) = reader.step() {
            break error;
        }
    };
    let number = error.number().unwrap() as i32;
    for form in [&["dump", "--bytes", "directory", "log"][..], &["dump", "--bytes", "--json", "directory", "log"]] {
        let said = run(scratch.path(), form);
        assert_eq!((said.status, said.err.as_str()), (Some(if number == 1 { 0 } else { number }), ""));
        assert!(rebuilt(&said.out) == bytes[..reader.offset()], "{} of {bytes:?}", said.out);
        let last = said.out.lines().last().unwrap();
        let fault = error.position().unwrap();
        let says = |text: String, json: String| last.contains(&text) || last.contains(&json);
        assert!(says(format!("answer {number} ("), format!("\"answer\":{number},")), "{last}");
        assert!(says(format!(" fault {fault} "), format!("\"fault\":{fault},")), "{last}");
    }
}

/// A record of every kind of action, with masks at their ends.
fn all_kinds() -> Vec<u8> {
    let mut list = ChangeList::new(&directory(), u64::MAX - 1);
    (0..64).for_each(|slot| list.insert_index(IndexTableId(3), 0, slot, &[slot; 512]).unwrap());
    [0, 1, 2, 5, 63].iter().for_each(|slot| list.insert_index(IndexTableId(3), 3, *slot, &[*slot; 512]).unwrap());
    list.insert_ref_count(RefCountTableId(2), 2, 63, &[7; 1024]).unwrap();
    list.insert_value(ValueTableId(7), 15, &[0xff; 20]).unwrap();
    list.drop_table(IndexTableId(3)).unwrap();
    list.drop_ref_count_table(RefCountTableId(2)).unwrap();
    list.record()
}

#[test]
fn dumps_build_the_log_again() {
    builds_again(&all_kinds());
    builds_again(&log(1..=40));
    builds_again(&log([5, 5, 1]));
    builds_again(&[]);
    // A mask of 0, which the writer never writes.
    let mut empty = [&[1, 9, 0, 0, 0, 0, 0, 0, 0][..], &[2, 3, 0], &[0; 8], &[0; 8], &[4]].concat();
    empty.extend(checksum(&empty).to_le_bytes());
    builds_again(&empty);
}

#[test]
fn cut_and_damaged() {
    let log = [log([1]), all_kinds(), log([2])].concat();
    for place in (0..log.len()).step_by(log.len() / 100) {
        builds_again(&log[..place]);
        let mut damaged = log.clone();
        damaged[place] ^= 4;
        builds_again(&damaged);
    }
}

#[test]
fn the_lines() {
    let scratch = folder();
    let mut list = ChangeList::new(&directory(), 7);
    list.insert_value(ValueTableId(7), 2, b"42 metres, not feet.").unwrap();
    list.insert_index(IndexTableId(3), 1, 5, &[1; 512]).unwrap();
    let mut log = list.record();
    fs::write(scratch.path().join("log"), &log).unwrap();
    let sum = checksum(&log[..log.len() - 4]);
    let said = run(scratch.path(), &["dump", "directory", "log"]);
    let lines = format!(
        "0 begin id 7\n9 index table 3 index 1 slots 5\n36 value table 7 index 2 length 20\n67 end\n\
         record 7 from 0 checksum {sum:08x}\nends 72 answer 1 (end of log) fault 72 records 1 length 72\n"
    );
    assert_eq!((said.status, said.out), (Some(0), lines));

    log[50] ^= 1;
    log.extend([9; 5]);
    fs::write(scratch.path().join("log"), &log).unwrap();
    let said = run(scratch.path(), &["dump", "--json", "directory", "log"]);
    let due = checksum(&log[..68]);
    let end = format!(
        "{{\"ends\":0,\"answer\":8,\"words\":\"checksum differs\",\"fault\":67,\"records\":0,\"length\":77,\
         \"stored\":\"{sum:08x}\",\"due\":\"{due:08x}\"}}"
    );
    assert_eq!((said.status, said.out.lines().last()), (Some(8), Some(end.as_str())));
}

#[test]
fn from_a_position() {
    let scratch = folder();
    let (first, second) = (log([1]), log([2]));
    fs::write(scratch.path().join("log"), [&first[..], &second].concat()).unwrap();
    let from = first.len().to_string();
    let said = run(scratch.path(), &["dump", "--from", &from, "directory", "log"]);
    assert!(said.out.starts_with(&format!("{from} begin id 2\n")), "{said:?}");
    let said = run(scratch.path(), &["dump", "--from", "999999", "directory", "log"]);
    assert_eq!((said.status, said.out.contains("answer 14 (")), (Some(14), true), "{said:?}");
    assert_eq!(run(scratch.path(), &["dump", "--from", "18446744073709551615", "directory", "log"]).status, Some(14));
}

#[test]
fn logs_that_cannot_be_read() {
    let scratch = folder();
    run(scratch.path(), &["dump", "directory", "missing"]).fails_with(66, "missing: No such file");
    run(scratch.path(), &["dump", "directory", "."]).fails_with(66, ".: Is a directory");
    run(scratch.path(), &["dump", "directory", "/proc/self/mem"]).fails_with(66, "/proc/self/mem: ");
    let said = run(scratch.path(), &["dump", "directory", "/dev/zero"]);
    assert_eq!((said.status, said.out.as_str()), (Some(3), "ends 0 answer 3 (unknown tag) fault 0 records 0\n"));
}

/// Twenty megabytes, so that records lie over the windows' ends.
#[test]
fn long_logs() {
    let scratch = folder();
    let bytes = log(1..=12_000);
    fs::write(scratch.path().join("log"), &bytes).unwrap();
    let said = run(scratch.path(), &["dump", "--bytes", "directory", "log"]);
    assert!(rebuilt(&said.out) == bytes);
    assert_eq!(said.out.lines().filter(|line| line.starts_with("record ")).count(), 12_000);
    // A record longer than a window.
    let bytes = chunks(7, 2, 512, 10_000);
    fs::write(scratch.path().join("log"), &bytes).unwrap();
    let said = run(scratch.path(), &["dump", "--bytes", "directory", "log"]);
    assert!(said.status == Some(0) && rebuilt(&said.out) == bytes);
}

#[test]
fn a_reader_who_goes_away() {
    let scratch = folder();
    fs::write(scratch.path().join("log"), log(1..=3000)).unwrap();
    let mut child = command(scratch.path(), &["dump", "directory", "log"]);
    let mut child = child.stdout(Stdio::piped()).stderr(Stdio::piped()).spawn().unwrap();
    child.stdout.take().unwrap().read_exact(&mut [0; 100]).unwrap();
    let output = child.wait_with_output().unwrap();
    assert_eq!((output.status.code(), output.stderr), (Some(74), Vec::new()));
}

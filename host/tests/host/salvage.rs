//! Damaged logs salvaged: document 02's examples, every byte damaged, random damage beside a search position by position.

use crate::sample::{directory, record, Random, Scratch};
use hongsathep::{raw, salvage, salvage_into, ChangeList, Directory, Line, Records};
use std::fs;

fn shown(lines: &[Line]) -> Vec<String> {
    lines.iter().map(ToString::to_string).collect()
}

/// The list as document 02 has it: each position tried in turn, the stretches between the records left out.
fn searched(directory: &Directory, log: &[u8]) -> Vec<Line> {
    let (mut lines, mut at, mut lost) = (Vec::new(), 0, 0);
    while at < log.len() {
        let Some(Ok(record)) = Records::at(directory, log, at).next() else {
            at += 1;
            continue;
        };
        let length = record.bytes().len();
        if lost < at {
            lines.push(Line::Lost { position: lost as u64, length: (at - lost) as u64 });
        }
        lines.push(Line::Kept { position: at as u64, length: length as u64, id: record.id() });
        at += length;
        lost = at;
    }
    if lost < at {
        lines.push(Line::Lost { position: lost as u64, length: (at - lost) as u64 });
    }
    lines
}

#[test]
fn the_two_examples() {
    let directory = directory();
    let mut log = ChangeList::new(&directory, 7).record();
    assert_eq!(shown(&salvage(&directory, &log).unwrap().lines), ["kept 0 14 7"]);
    log.extend([9; 5]);
    let salvaged = salvage(&directory, &log).unwrap();
    assert_eq!(shown(&salvaged.lines), ["kept 0 14 7", "lost 14 5"]);
    assert_eq!(salvaged.records, log[..14]);
    assert_eq!(shown(&salvage(&directory, &[]).unwrap().lines), [""; 0]);

    let scratch = Scratch::new();
    salvaged.save(scratch.file(0)).unwrap();
    assert_eq!(fs::read(scratch.file(0)).unwrap(), log[..14]);
}

/// Each byte of a log of ten records set to each other value: what is lost lies in the record that holds the byte.
#[test]
fn every_byte_damaged() {
    let folder = concat!(env!("CARGO_MANIFEST_DIR"), "/../crates/salvage/data/");
    let directory: Directory = fs::read_to_string(format!("{folder}directory")).unwrap().parse().unwrap();
    let mut log = fs::read(format!("{folder}ten")).unwrap();
    let whole = salvage(&directory, &log).unwrap();
    assert!(whole.lines.len() == 10 && whole.lines.iter().all(|line| line.is_kept()) && whole.records == log);
    let mut tries = 0;
    for at in 0..log.len() {
        let holder = whole.lines.iter().find(|line| (at as u64) < line.position() + line.length()).unwrap();
        let right = log[at];
        for wrong in (0..=255).filter(|byte| *byte != right) {
            log[at] = wrong;
            let lines = salvage(&directory, &log).unwrap().lines;
            let mut lost = lines.iter().filter(|line| !line.is_kept());
            let inside = |line: &Line| {
                holder.position() <= line.position()
                    && line.position() + line.length() <= holder.position() + holder.length()
            };
            assert!(lost.all(inside), "byte {at} as {wrong}: {lines:?}");
            let mut untouched = whole.lines.iter().filter(|line| *line != holder);
            assert!(untouched.all(|line| lines.contains(line)), "byte {at} as {wrong}: {lines:?}");
            tries += 1;
        }
        log[at] = right;
    }
    println!("{tries} logs of ten records with a byte damaged: nothing lost beyond the record that holds it");
}

/// Records cut, turned, left out and put into one another.
#[test]
fn damage_beside_a_search_position_by_position() {
    let directory = directory();
    let mut random = Random(8);
    let (mut kept, mut lost, mut long) = (0, 0, 0);
    for _ in 0..600 {
        let mut log = Vec::new();
        for _ in 0..random.below(12) {
            let mut bytes = record(&directory, random.below(40));
            let (at, length) = (random.below(bytes.len() as u64) as usize, random.below(30) as usize);
            match random.below(5) {
                0 => bytes.truncate(at),
                1 => bytes[at] ^= 1 << random.below(8),
                2 => bytes.splice(at..at, record(&directory, 50)).for_each(drop),
                3 => bytes.extend(random.bytes(length)),
                _ => {}
            }
            log.extend(bytes);
        }
        let due = searched(&directory, &log);
        match salvage(&directory, &log) {
            Ok(salvaged) => assert_eq!(salvaged.lines, due),
            Err(error) => assert!(error.number() == Some(9) && due.len() > 64),
        }
        long = long.max(due.len());
        kept += due.iter().filter(|line| line.is_kept()).count();
        lost += due.iter().filter(|line| !line.is_kept()).count();
    }
    println!("600 damaged logs: {kept} records kept, {lost} stretches lost, {long} lines at most");
}

/// 13, then 9, then 10; a refusal touches neither output nor list.
#[test]
fn refusals_in_their_order() {
    let directory = directory();
    let words = directory.words();
    let pair = [vec![0], ChangeList::new(&directory, 3).record()].concat();
    let (most, more) = (pair.repeat(32), [pair.repeat(32), vec![0]].concat());
    assert_eq!(salvage(&directory, &most).unwrap().lines.len(), 64);
    assert_eq!(salvage(&directory, &more).unwrap_err().number(), Some(9));
    let refused = |tables: &[u64], log: &[u8], room: usize, lines: usize, due: u64| {
        let (mut out, mut list) = (vec![0x5a; room], vec![77; lines]);
        let (mut n, mut written) = (5, 5);
        assert_eq!(raw::hongsathep_salvage(tables, log, &mut out, &mut list, &mut n, &mut written), due);
        assert_eq!((n, written), (0, 0));
        assert!(out == vec![0x5a; room] && list == vec![77; lines]);
    };
    refused(words, &most, 32 * 14 - 1, 256, 10);
    refused(words, &more, 32 * 14 - 1, 256, 9);
    refused(words, &more, 0, 255, 13);
    refused(&words[1..], &most, 0, 256, 13);

    // Just room enough, and what stands behind stays.
    let mut out = vec![0x5a; 32 * 14 + 3];
    let (lines, written) = salvage_into(&directory, &most, &mut out).unwrap();
    assert_eq!((lines.len(), written), (64, 32 * 14));
    assert_eq!(out, [pair[1..].repeat(32), vec![0x5a; 3]].concat());
    assert_eq!(salvage_into(&directory, &most, &mut out[..32 * 14 - 1]).unwrap_err().number(), Some(10));
}

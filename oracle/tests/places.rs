//! Document 02, "Five": where a reading is at fault, by the driver, sentence by sentence.

use oracle::{
    log::driver::Driver,
    protocol::{image, op, replaying, tag, with_blob},
};

/// A value table 0 of two places of one byte.
const DIRECTORY: [u8; 10] = [op::DIR, 1, 1, 0, 0, 0, 2, 0, 1, 0];

const IMAGE_LENGTH: usize = 2;

/// A record with an action, its checksum right.
fn record(id: u64, action: &[u8]) -> Vec<u8> {
    let mut bytes = [&[tag::BEGIN], &id.to_le_bytes()[..], action, &[tag::END]].concat();
    bytes.extend(crc32fast::hash(&bytes).to_le_bytes());
    bytes
}

/// A value at an index.
fn value(table: u8, index: u8) -> Vec<u8> {
    [&[tag::VALUE, table, 0, index], &[0; 7][..], &[0xaa]].concat()
}

/// A driver that was handed the directory, a fitting image and a log.
fn over(log: &[u8]) -> Driver {
    let mut driver = Driver::new().unwrap();
    let handed = [DIRECTORY.to_vec(), image(IMAGE_LENGTH, 0), with_blob(op::LOG, log)];
    handed.iter().for_each(|command| drop(driver.answer(command)));
    driver
}

/// The place that WHERE tells, if it tells one.
fn place(driver: &mut Driver) -> Option<u64> {
    let answer = driver.answer(&[op::WHERE]);
    let place = u64::from_le_bytes(answer[1..9].try_into().unwrap());
    assert!(answer.len() == 9 && (answer[0] == 1 || place == 0));
    (answer[0] == 1).then_some(place)
}

/// Number and place of a call.
fn told(driver: &mut Driver, command: &[u8]) -> (u8, Option<u64>) {
    (driver.answer(command)[0], place(driver))
}

fn replay(log: &[u8], position: u64, expected: u64) -> (u8, Option<u64>) {
    told(&mut over(log), &replaying(op::REPLAY, position, expected))
}

fn run(log: &[u8], position: u64, expected: u64) -> (u8, Option<u64>) {
    told(&mut over(log), &replaying(op::RUN, position, expected))
}

fn clear(log: &[u8], position: u64) -> (u8, Option<u64>) {
    told(&mut over(log), &[&[op::CLEAR], &position.to_le_bytes()[..]].concat())
}

#[test]
fn nothing_is_at_fault_at_the_start_or_beside_0() {
    assert_eq!(place(&mut over(&[])), None);
    assert_eq!(replay(&record(7, &[]), 0, 7), (0, None));
    assert_eq!(clear(&record(7, &[]), 0), (0, None));
}

/// "For 5 that is the begin tag".
#[test]
fn another_id() {
    let log = [record(7, &value(0, 0)), record(9, &[])].concat();
    assert_eq!(replay(&log, 0, 8), (5, Some(0)));
    assert_eq!(run(&log, 0, 7), (5, Some(26)));
}

/// "for 8 the end tag".
#[test]
fn a_wrong_checksum() {
    let mut log = [record(7, &[]), record(8, &value(0, 0))].concat();
    *log.last_mut().unwrap() ^= 1;
    assert_eq!(run(&log, 0, 7), (8, Some(14 + 21)));
    assert_eq!(clear(&log, 14), (8, Some(14 + 21)));
}

/// "for an opening fault the record's start"; the end of the log is one.
#[test]
fn openings() {
    let log = [&record(7, &[])[..], &[8]].concat();
    assert_eq!(run(&log, 0, 7), (3, Some(14)));
    let log = [&record(7, &[])[..], &[tag::DROP_INDEX, 0, 0]].concat();
    assert_eq!(run(&log, 0, 7), (4, Some(14)));
    let log = [&record(7, &[])[..], &[tag::END, 0, 0, 0, 0]].concat();
    assert_eq!(run(&log, 0, 7), (8, Some(14)));
    assert_eq!(run(&record(7, &[]), 0, 7), (1, Some(14)));
    let log = [&record(7, &[])[..], &[tag::BEGIN, 8, 0]].concat();
    assert_eq!(run(&log, 0, 7), (1, Some(14)));
    assert_eq!(clear(&[], 0), (1, Some(0)));
}

/// "for 12 the place behind the last record read".
#[test]
fn the_last_id() {
    let log = [record(u64::MAX - 1, &[]), record(u64::MAX, &value(0, 1)), vec![8]].concat();
    assert_eq!(run(&log, 0, u64::MAX - 1), (12, Some(14 + 26)));
    assert_eq!(clear(&log, 14), (12, Some(14 + 26)));
}

/// "for 13 and 14 the position handed in".
#[test]
fn before_anything_is_read() {
    let log = record(7, &[]);
    for position in [0, 15, u64::MAX] {
        let mut driver = over(&log);
        driver.answer(&image(IMAGE_LENGTH + 1, 0));
        assert_eq!(told(&mut driver, &replaying(op::RUN, position, 7)), (13, Some(position)));
    }
    assert_eq!(run(&log, 15, 7), (14, Some(15)));
    assert_eq!(clear(&log, u64::MAX), (14, Some(u64::MAX)));
}

/// "the first byte of the action at fault".
#[test]
fn actions() {
    let first = value(0, 0);
    for (number, action) in [
        (3, vec![8]),
        (4, vec![tag::BEGIN]),
        (6, value(1, 0)),
        (7, value(0, 2)),
        (6, vec![tag::DROP_INDEX, 0, 0]),
    ] {
        let log = record(7, &[&first[..], &action].concat());
        assert_eq!(replay(&log, 0, 7), (number, Some(9 + 12)));
    }
}

/// "for 2 with no further action begun, the log's end".
#[test]
fn cuts() {
    let log = record(7, &[value(0, 0), value(0, 1)].concat());
    for cut in 9..log.len() {
        let begun = [9, 21, 33].into_iter().rfind(|start| *start < cut);
        let whole_up_to = [9, 21, 33].contains(&cut);
        let place = if whole_up_to { cut } else { begun.unwrap() };
        assert_eq!(replay(&log[..cut], 0, 7), (2, Some(place as u64)), "cut at {cut}");
    }
}

/// A step's is where the cursor stands; a step that is answered 0 takes it back.
#[test]
fn steps() {
    let log = record(7, &[&value(0, 0)[..], &value(0, 2)].concat());
    let mut driver = over(&log);
    assert_eq!(told(&mut driver, &[&[op::STEP_AT], &[0; 8][..], &[1]].concat()), (0, None));
    assert_eq!(told(&mut driver, &[op::STEP, 1]), (0, None));
    // Index 2 isn't below the count: the Rust takes it, a listed difference.
    assert_eq!(told(&mut driver, &[op::STEP, 1]), (0, None));
    driver.answer(&with_blob(op::LOG, &log[..33]));
    assert_eq!(told(&mut driver, &[op::STEP, 1]), (2, Some(33)));
    driver.answer(&with_blob(op::LOG, &log[..3]));
    assert_eq!(told(&mut driver, &[op::STEP, 1]), (14, Some(33)));
}

/// As 01 demands it, the step over index 2 is refused where it stands.
#[test]
fn a_step_that_is_listed() {
    let log = record(7, &value(0, 2));
    let mut demanded = oracle::demanded::Demanded::new().unwrap();
    for command in [DIRECTORY.to_vec(), with_blob(op::LOG, &log)] {
        demanded.answer(&command);
    }
    demanded.answer(&[&[op::STEP_AT], &[0; 8][..], &[1]].concat());
    assert_eq!(demanded.answer(&[op::STEP, 1]), [7]);
    assert_eq!(demanded.answer(&[op::WHERE]), [1, 9, 0, 0, 0, 0, 0, 0, 0]);
}

/// "No other call touches it": document 02's commands, WHERE.
#[test]
fn only_readings_touch_it() {
    let mut driver = over(&[8]);
    driver.answer(&replaying(op::REPLAY, 0, 7));
    for command in [vec![op::IMAGE_SUM], vec![op::BEGIN], vec![op::STATE], vec![op::KILL]] {
        driver.answer(&command);
        assert_eq!(place(&mut driver), Some(0));
    }
}

//! Document 02, "One", by the driver: a log in pieces, and the byte that decides.

use oracle::{
    log::driver::Driver,
    protocol::{op, tag, with_blob, Fields},
};

/// A value table 0 of two places of one byte.
const DIRECTORY: [u8; 10] = [op::DIR, 1, 1, 0, 0, 0, 2, 0, 1, 0];

fn record(id: u64, action: &[u8]) -> Vec<u8> {
    let mut bytes = [&[tag::BEGIN], &id.to_le_bytes()[..], action, &[tag::END]].concat();
    bytes.extend(crc32fast::hash(&bytes).to_le_bytes());
    bytes
}

fn value(table: u8, index: u8) -> Vec<u8> {
    [&[tag::VALUE, table, 0, index], &[0; 7][..], &[0xaa]].concat()
}

/// A driver with a new checker under the directory.
fn checking(first_id: u64) -> Driver {
    let mut driver = Driver::new().unwrap();
    driver.answer(&DIRECTORY);
    assert_eq!(driver.answer(&[&[op::CHECK_NEW], &first_id.to_le_bytes()[..]].concat()), [0]);
    driver
}

fn piece(driver: &mut Driver, bytes: &[u8]) -> u8 {
    let answer = driver.answer(&with_blob(op::PIECE, bytes));
    assert_eq!(answer.len(), 1);
    answer[0]
}

/// Number, position and count.
fn close(driver: &mut Driver) -> (u8, u64, u64) {
    let answer = driver.answer(&[op::CLOSE]);
    let mut fields = Fields(&answer);
    (fields.u8(), fields.u64(), fields.u64())
}

fn place(driver: &mut Driver) -> Option<u64> {
    let answer = driver.answer(&[op::WHERE]);
    (answer[0] == 1).then(|| Fields(&answer[1..]).u64())
}

/// The byte from which on pieces of one byte each are answered with a number, and that number.
fn decided(log: &[u8], first_id: u64) -> Option<(usize, u8)> {
    let mut driver = checking(first_id);
    let answers: Vec<u8> = log.iter().map(|byte| piece(&mut driver, &[*byte])).collect();
    let from = answers.iter().position(|answer| *answer != 0)?;
    assert!(answers[from..].iter().all(|answer| *answer == answers[from]));
    Some((from, answers[from]))
}

/// "a checker closed without a byte: 1, 0, 0" (OPEN-POINTS-02, B 21).
#[test]
fn nothing() {
    let mut driver = checking(1);
    assert_eq!(piece(&mut driver, &[]), 0);
    assert_eq!(close(&mut driver), (1, 0, 0));
    assert_eq!(place(&mut driver), Some(0));
}

/// "Answers 1 and 2 can be given only at the close."
#[test]
fn every_cut_of_two_records() {
    let log = [record(7, &[]), record(8, &value(0, 1))].concat();
    for cut in 0..=log.len() {
        assert_eq!(decided(&log[..cut], 7), None);
        let mut driver = checking(7);
        assert_eq!(piece(&mut driver, &log[..cut]), 0);
        let due = match cut {
            0..=8 => (1, 0, 0),
            9..=13 => (2, 0, 0),
            14..=22 => (1, 14, 1),
            _ if cut < log.len() => (2, 14, 1),
            _ => (1, log.len() as u64, 2),
        };
        assert_eq!(close(&mut driver), due, "cut at {cut}");
    }
}

/// The byte that decides is where 01's order puts it (OPEN-POINTS-02, E02).
#[test]
fn the_byte_that_decides() {
    let begun = [&[tag::BEGIN], &7u64.to_le_bytes()[..]].concat();
    let inside = |bytes: &[u8]| decided(&[&begun[..], bytes].concat(), 7);
    assert_eq!(decided(&[8, 0], 7), Some((0, 3)));
    assert_eq!(decided(&begun, 8), Some((8, 5)));
    assert_eq!(decided(&[&[tag::VALUE], &[0; 10][..]].concat(), 7), Some((10, 4)));
    assert_eq!(decided(&[tag::DROP_INDEX, 0, 0], 7), Some((2, 4)));
    assert_eq!(decided(&[tag::END, 0, 0, 0, 0], 7), Some((4, 8)));
    let right = [&[tag::END], &crc32fast::hash(&[tag::END]).to_le_bytes()[..]].concat();
    assert_eq!(decided(&right, 7), Some((4, 4)));
    assert_eq!(inside(&[tag::BEGIN]), Some((9, 4)));
    assert_eq!(inside(&[0]), Some((9, 3)));
    assert_eq!(inside(&value(1, 0)), Some((9 + 10, 6)));
    assert_eq!(inside(&value(0, 2)), Some((9 + 10, 7)));
    assert_eq!(inside(&[tag::DROP_INDEX, 0, 0]), Some((9 + 2, 6)));
    assert_eq!(inside(&[tag::END, 0, 0, 0, 0]), Some((9 + 4, 8)));
    assert_eq!(decided(&record(u64::MAX, &[]), u64::MAX), Some((13, 12)));
}

/// The answer doesn't depend on the cutting.
#[test]
fn every_cutting_in_two() {
    let log = [record(7, &value(0, 0)), record(8, &value(0, 2)), record(9, &[])].concat();
    for cut in 0..=log.len() {
        let mut driver = checking(7);
        piece(&mut driver, &log[..cut]);
        assert_eq!(piece(&mut driver, &log[cut..]), 7);
        assert_eq!(place(&mut driver), Some(26 + 9));
        assert_eq!(close(&mut driver), (7, 26, 1));
        assert_eq!(place(&mut driver), Some(26 + 9));
    }
}

/// "a call after the close ... gives 14 and changes nothing".
#[test]
fn after_the_close() {
    let mut driver = checking(7);
    piece(&mut driver, &record(7, &[]));
    assert_eq!(close(&mut driver), (1, 14, 1));
    for _ in 0..2 {
        assert_eq!(piece(&mut driver, &[8]), 14);
        assert_eq!(place(&mut driver), Some(14));
        assert_eq!(close(&mut driver), (14, 14, 0));
    }
}

/// 13 at the start, and at every call.
#[test]
fn a_broken_directory() {
    let mut driver = Driver::new().unwrap();
    driver.answer(&[op::DIR, 1, 1, 0, 0, 8, 2, 0, 1, 0]);
    assert_eq!(driver.answer(&[&[op::CHECK_NEW], &[0; 8][..]].concat()), [13]);
    assert_eq!(place(&mut driver), Some(0));
    // The directory is a copy: another one changes nothing.
    driver.answer(&DIRECTORY);
    assert_eq!(piece(&mut driver, &[1]), 13);
    assert_eq!(close(&mut driver), (13, 0, 0));
    assert_eq!(close(&mut driver), (13, 0, 0));
}

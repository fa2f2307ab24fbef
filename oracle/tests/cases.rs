//! The cases of document 01 that the driven commands can show, answered by the Rust.

use oracle::{
    log::driver::Driver,
    protocol::{from_hex, op, with_blob},
};

/// Index table 1, value table 2 of length 20 and reference count table 3, each with 8 places.
const DIRECTORY: &str = "0103000100000800000001020000080014000203000008000000";

/// The numbers answered when a log is walked from its front, validating or not.
fn walk(log: &str, steps: usize, validate: u8) -> Vec<u8> {
    let mut driver = Driver::new().unwrap();
    driver.answer(&from_hex(DIRECTORY).unwrap());
    driver.answer(&with_blob(op::LOG, &from_hex(log).unwrap()));
    let step_at = [&[op::STEP_AT], &[0; 8][..], &[validate]].concat();
    let commands = std::iter::once(step_at).chain(std::iter::repeat(vec![op::STEP, validate]));
    commands.take(steps).map(|command| driver.answer(&command)[0]).collect()
}

/// Cases (a) to (e): a record's length, its bytes, and the changes that make it.
fn records_of_known_length() -> [(usize, &'static str, Vec<String>); 5] {
    let entries = ["0001020304050607", "08090a0b0c0d0e0f"];
    let slots_0_and_2 = format!("{}{:016}{}{}", entries[0], 0, entries[1], "00".repeat(488));
    let slot_0 = format!("{}{}{}", entries[0], entries[1], "00".repeat(1008));
    let insert_index = |slot: &str| format!("0601000000000000000000{slot}00020000{slots_0_and_2}");
    let value = "000102030405060708090a0b0c0d0e0f10111213";
    [
        (14, "0101000000000000000412d35e1c", vec![]),
        (
            49,
            "01010000000000000002010000000000000000000500000000000000000102030405060708090a0b0c0d0e0f\
             0405fa2bd0",
            vec![insert_index("00"), insert_index("02")],
        ),
        (
            45,
            "0101000000000000000302000000000000000000000102030405060708090a0b0c0d0e0f10111213\
             04400fe5b8",
            vec![format!("070200000000000000000014000000{value}")],
        ),
        (17, "01010000000000000005010004748d3678", vec!["090100".into()]),
        (
            49,
            "01010000000000000006030000000000000000000100000000000000000102030405060708090a0b0c0d0e0f\
             04b8c18b57",
            vec![format!("08030000000000000000000000040000{slot_0}")],
        ),
    ]
}

#[test]
fn records_of_known_length_are_read() {
    for (length, log, changes) in records_of_known_length() {
        assert_eq!(log.len() / 2, length);
        let actions = if changes.is_empty() { 2 } else { 3 };
        let mut expected = vec![0; actions];
        expected.push(1);
        assert_eq!(walk(log, actions + 1, 1), expected, "{log}");
    }
}

/// Into an output of its length, one that is a byte short, and one that is a byte longer.
#[test]
fn records_of_known_length_are_written() {
    for (length, record, changes) in records_of_known_length() {
        let mut lines = vec![DIRECTORY.to_string()];
        lines.extend(changes);
        let outputs = [length, length - 1, length + 1];
        lines.extend(outputs.map(|output| format!("f0{output:02x}000000")));
        let lines: Vec<&str> = lines.iter().map(String::as_str).collect();
        let record = from_hex(record).unwrap();
        let due = |number: u8, record: &[u8], rest: usize| {
            let output = [record, &vec![0x5a; rest]].concat();
            let count = (record.len() as u32).to_le_bytes();
            let sum = crc32fast::hash(&output).to_le_bytes();
            [&[number], &count[..], &count, record, &sum].concat()
        };
        let written = answers(&lines);
        let due = [due(0, &record, 0), due(10, &[], length - 1), due(0, &record, 1)];
        assert_eq!(written[lines.len() - 3..], due);
    }
}

#[test]
fn openings() {
    let not_validating = 0;
    for (log, number) in [
        ("", 1),
        ("0101010101010101", 1),
        ("02", 1),
        ("02010000000000000000", 1),
        ("0201000000000000000000", 4),
        ("08", 3),
        ("00", 3),
        ("0501", 1),
        ("050100", 4),
        ("04942b6f", 1),
        ("0400000000", 4),
    ] {
        assert_eq!(walk(log, 1, not_validating), [number], "{log}");
    }
}

#[test]
fn end_tag_as_an_opening_when_validating() {
    let validating = 1;
    for (log, number) in [("04942b6f", 1), ("0400000000", 8), ("04942b6fd5", 4)] {
        assert_eq!(walk(log, 1, validating), [number], "{log}");
    }
}

/// A running checksum is that of the bytes read while validating.
#[test]
fn validation_switched_inside_a_record() {
    let mut driver = Driver::new().unwrap();
    let log = from_hex("0101000000000000000412d35e1c").unwrap();
    driver.answer(&with_blob(op::LOG, &log));
    let mut number = |line| driver.answer(&from_hex(line).unwrap())[0];
    assert_eq!([number("0b000000000000000000"), number("0c01"), number("0c00")], [0, 8, 0]);
}

fn answers(lines: &[&str]) -> Vec<Vec<u8>> {
    let mut driver = Driver::new().unwrap();
    lines.iter().map(|line| driver.answer(&from_hex(line).unwrap())).collect()
}

#[test]
fn slot_63_and_64() {
    let chunk = "00".repeat(512);
    let insert = |slot: &str| format!("0601000000000000000000{slot}00020000{chunk}");
    assert_eq!(answers(&[DIRECTORY, &insert("3f"), &insert("40")]), [[0], [0], [14]]);
}

/// Size 10, minimum 10; then minimum 9.
#[test]
fn a_flush_needs_more_than_the_minimum() {
    let appending_0_of_size_10 = "1f01000000000a00000000000000000000000000000000000000000100000000";
    let flushed = answers(&[appending_0_of_size_10, "140a00000000000000", "140900000000000000"]);
    assert_eq!(flushed[1..], [[0, 0], [0, 1]]);
}

/// 17 are due in the pool: the highest is removed.
#[test]
fn the_pool_keeps_the_lowest() {
    let mut queues = String::from("1f0000000000000000000000000000000000000000");
    // 3 in cleanup; 0, 1, 2 and 4 to 16 in the pool.
    queues += "010003000000";
    queues += "1000";
    for number in (0..17).filter(|number| *number != 3) {
        queues += &format!("{number:02x}000000");
    }
    queues += "00001100000000";
    let cleaned = answers(&[&queues, "170100000000000000"]);
    let (emptied, removed) = ([1, 0, 3, 0, 0, 0], [1, 0, 16, 0, 0, 0]);
    assert_eq!(cleaned[1], [&[0, 0], &emptied[..], &removed].concat());
}

/// An END of a list with value 256, and with value 0, which is shared already, beside 256 values.
#[test]
fn an_overlay_has_room_for_256_keys() {
    let table_0_of_300 = "0101010000002c010100";
    let forge = |index: u16| {
        let [low, high] = index.to_le_bytes();
        format!("22010000{low:02x}{high:02x}00000000000001000000000000000000000000000000ff0100")
    };
    let shared: Vec<String> = (0..256).map(forge).collect();
    let mut lines = vec![table_0_of_300];
    lines.extend(shared.iter().map(String::as_str));
    lines.extend(["11", "070000000100000000000001000000ff", "1264000000"]);
    lines.extend(["11", "070000000000000000000001000000ff", "1264000000"]);
    let numbers: Vec<u8> = answers(&lines).iter().map(|answer| answer[0]).collect();
    assert_eq!(numbers[257..], [0, 0, 9, 0, 0, 0]);
}

/// OPEN of 64 and of 65 files of 9 bytes.
#[test]
fn open_keeps_64_files() {
    let open = |files: u16| {
        let [low, high] = files.to_le_bytes();
        let file = |n: u16| {
            let name: String = format!("log{n}").bytes().map(|b| format!("{b:02x}")).collect();
            format!("{:02x}{name}09000000010000000000000000", name.len() / 2)
        };
        let all: String = (0..files).map(file).collect();
        format!("10{low:02x}{high:02x}{all}")
    };
    let numbers: Vec<u8> =
        answers(&[&open(64), &open(65)]).iter().map(|answer| answer[0]).collect();
    assert_eq!(numbers, [0, 9]);
}

/// BEGIN and END with none appending, the pool empty and 63, or 64, files in cleanup.
#[test]
fn a_65th_file_is_refused() {
    let forge = |files: u32| {
        let cleanup: String = (0..files).map(|n| format!("{:08x}", n.swap_bytes())).collect();
        let [low, high, ..] = files.to_le_bytes();
        format!("1f0000000000000000000000000000000000000000{low:02x}{high:02x}{cleanup}00000000{low:02x}{high:02x}000000")
    };
    let ended = |files: u32| answers(&[&forge(files), "11", "120e000000"])[2][0];
    assert_eq!([ended(63), ended(64)], [0, 9]);
}

#[test]
fn an_opcode_that_is_not_driven() {
    let unknown = 0x25;
    assert_eq!(Driver::new().unwrap().answer(&[unknown]), [0xff]);
}

//! Records as the Rust writes them, held against those that document 01 has.

use crate::model::{checksum, Model};
use oracle::{
    generator::Generator,
    log::driver::Driver,
    part::Part,
    protocol::{from_hex, op, Script},
};

/// Value table 2 of length 1, index table 3 and reference count table 3, each with 64 places.
const DIRECTORY: &str = "0103010200004000010000030000400000000203000040000000";

/// The Rust's record of a list, and what leads to it.
struct Written {
    driver: Driver,
    script: Script,
}

impl Written {
    fn by(lines: &[String]) -> Written {
        let lines = std::iter::once(DIRECTORY).chain(lines.iter().map(String::as_str));
        let script: Script = lines.map(|line| from_hex(line).unwrap()).collect();
        let mut driver = Driver::new().unwrap();
        for command in &script {
            assert_eq!(driver.answer(command), [0]);
        }
        Written { driver, script }
    }

    fn compared_with(&mut self, port: &[u8]) -> Result<(), String> {
        self.driver.compare_record(port)
    }

    /// The record that 01 has for the list.
    fn due(&self) -> Vec<u8> {
        Model::record_of(&self.script)
    }
}

/// A list of two values and three drops.
fn small_list() -> Written {
    let lines = [
        "050700000000000000",
        "07020009000000000000000100000099",
        "07020008000000000000000100000088",
        "090300",
        "0a0300",
        "090300",
    ];
    Written::by(&lines.map(str::to_string))
}

const FIRST: &str = "030200080000000000000088";
const SECOND: &str = "030200090000000000000099";
const DROP: &str = "050300";
const DROP_REF: &str = "070300";

fn record(id: u8, items: &[&str]) -> Vec<u8> {
    let mut bytes = vec![1, id, 0, 0, 0, 0, 0, 0, 0];
    bytes.extend(items.iter().flat_map(|item| from_hex(item).unwrap()));
    bytes.push(4);
    bytes.extend(checksum(&bytes).to_le_bytes());
    bytes
}

#[test]
fn the_order_of_01_is_due() {
    let mut written = small_list();
    let due = record(7, &[FIRST, SECOND, DROP, DROP, DROP_REF]);
    assert_eq!(written.due(), due);
    assert_eq!(written.compared_with(&due), Ok(()));
}

#[test]
fn other_records_are_differences() {
    let mut written = small_list();
    let mut wrong_sum = record(7, &[FIRST, SECOND, DROP, DROP, DROP_REF]);
    *wrong_sum.last_mut().unwrap() ^= 1;
    let mut end_tag_left_out = wrong_sum.clone();
    let end = end_tag_left_out.len() - 5;
    let sum = checksum(&end_tag_left_out[..end]).to_le_bytes();
    end_tag_left_out[end + 1..].copy_from_slice(&sum);
    for (port, why) in [
        (record(7, &[]), "the port lacks"),
        (record(7, &[FIRST, SECOND, DROP, DROP_REF]), "the port lacks 050300"),
        (record(7, &[FIRST, SECOND, DROP, DROP, DROP, DROP_REF]), "the Rust lacks 050300"),
        (record(7, &[SECOND, FIRST, DROP, DROP, DROP_REF]), "not in the order"),
        (record(7, &[DROP, DROP, FIRST, SECOND, DROP_REF]), "not in the order"),
        (record(8, &[FIRST, SECOND, DROP, DROP, DROP_REF]), "the ids differ"),
        (record(7, &[FIRST, "0302000900000000000000aa", DROP, DROP, DROP_REF]), "the port lacks"),
        (record(7, &[FIRST, "08"]), "no item starts"),
        (wrong_sum, "checksum"),
        (end_tag_left_out, "checksum"),
        (Vec::new(), "too short"),
    ] {
        let told = written.compared_with(&port).unwrap_err();
        assert!(told.contains(why), "{told} instead of {why}");
    }
}

/// Random lists: the model's record is due, and the Rust's reader takes both.
#[test]
fn random_lists() {
    let script = Generator::new(1, &[Part::Lists]).batch();
    let mut driver = Driver::new().unwrap();
    let mut compared = 0;
    for at in 0..script.len() {
        driver.answer(&script[at]);
        if script[at][0] != op::LIST_SUM || !driver.list_keeps_the_rules() {
            continue;
        }
        let list = script[..at].iter().rposition(|command| command[0] == op::NEWLIST).unwrap();
        let directory = script[..at].iter().rposition(|command| command[0] == op::DIR).unwrap();
        let due = Model::record_of(&[&script[directory..=directory], &script[list..at]].concat());
        assert_eq!(driver.compare_record(&due), Ok(()));
        for record in [due, driver.written_record()] {
            assert_eq!(taken(&mut Driver::new().unwrap(), &driver.walk_through(&record)), Ok(()));
        }
        compared += 1;
        if compared == 100 {
            return;
        }
    }
    panic!("only {compared} lists are compared");
}

/// Each step is done up to the last, which finds the end of the log.
fn taken(driver: &mut Driver, walk: &Script) -> Result<(), Vec<u8>> {
    let numbers: Vec<u8> = walk.iter().map(|command| driver.answer(command)[0]).collect();
    let (last, others) = numbers.split_last().unwrap();
    if *last == 1 && others.iter().all(|number| *number == 0) {
        return Ok(());
    }
    Err(numbers)
}

/// 32 full index chunks, 32 values of 512 bytes, 16 full reference count chunks, 16 drops of each.
#[test]
fn the_largest_record() {
    let mut script =
        vec![from_hex("0103010000004000000200000000400000000200000040000000").unwrap()];
    let forge = |kind: u8, index: u8, length: u16| {
        let key = [0x21, kind, 0, 0, index, 0, 0, 0, 0, 0, 0, 0];
        [&key[..], &[0xff; 8], &[0xaa], &length.to_le_bytes()].concat()
    };
    for index in 0..32 {
        script.push(forge(0, index, 512));
        script.push(forge(1, index, 512));
    }
    script.extend((0..16).map(|index| forge(2, index, 1024)));
    script.extend((0..16).flat_map(|_| [vec![0x24, 0, 0, 0], vec![0x24, 2, 0, 0]]));
    let mut driver = Driver::new().unwrap();
    for command in &script {
        assert_eq!(driver.answer(command), [0]);
    }
    assert!(driver.list_keeps_the_rules());
    assert_eq!(driver.written_record().len(), 50_526);
    assert_eq!(driver.compare_record(&Model::record_of(&script)), Ok(()));
}

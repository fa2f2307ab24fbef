//! Document 02, "Eight", by the driver: its examples, the rules of its list, and its refusals.

use oracle::{
    log::driver::Driver,
    protocol::{op, tag, with_blob, Fields},
};

/// An index table 1 of two chunks, and a value table 2 of three places of 20 bytes.
const DIRECTORY: [u8; 18] = [op::DIR, 2, 0, 1, 0, 0, 2, 0, 0, 0, 1, 2, 0, 0, 3, 0, 20, 0];

fn record(id: u64, action: &[u8]) -> Vec<u8> {
    let mut bytes = [&[tag::BEGIN], &id.to_le_bytes()[..], action, &[tag::END]].concat();
    bytes.extend(crc32fast::hash(&bytes).to_le_bytes());
    bytes
}

/// A value at index 0 of table 2.
fn value(bytes: [u8; 20]) -> Vec<u8> {
    [&[tag::VALUE, 2, 0], &[0; 8][..], &bytes].concat()
}

#[derive(Debug, PartialEq)]
struct Salvaged {
    number: u8,
    /// As the program prints them.
    lines: Vec<String>,
    written: Vec<u8>,
    output_sum: u32,
}

fn salvage(directory: &[u8], log: &[u8], output_length: usize) -> Salvaged {
    let mut driver = Driver::new().unwrap();
    driver.answer(directory);
    driver.answer(&with_blob(op::LOG, log));
    let length = (output_length as u32).to_le_bytes();
    let answer = driver.answer(&[&[op::SALVAGE], &length[..]].concat());
    let mut fields = Fields(&answer);
    let number = fields.u8();
    let lines = (0..fields.u16())
        .map(|_| {
            let (kept, position, length, id) =
                (fields.u8() != 0, fields.u64(), fields.u64(), fields.u64());
            match kept {
                true => format!("kept {position} {length} {id}"),
                false => format!("lost {position} {length}"),
            }
        })
        .collect();
    let count = fields.u32() as usize;
    let written = fields.blob().to_vec();
    assert_eq!(written.len(), count);
    Salvaged { number, lines, written, output_sum: fields.u32() }
}

fn lines(log: &[u8]) -> Vec<String> {
    let salvaged = salvage(&DIRECTORY, log, log.len());
    assert_eq!(salvaged.number, 0);
    salvaged.lines
}

/// "a log of one empty record with id 7 prints `kept 0 14 7` and nothing else; a stretch of five bytes
/// at 14 prints `lost 14 5`".
#[test]
fn examples() {
    assert_eq!(lines(&record(7, &[])), ["kept 0 14 7"]);
    assert_eq!(lines(&[&record(7, &[])[..], &[0; 5]].concat()), ["kept 0 14 7", "lost 14 5"]);
    assert!(lines(&[]).is_empty());
    assert_eq!(lines(&[0xff]), ["lost 0 1"]);
}

/// "with any id": falling, repeated, 0 and the last.
#[test]
fn any_id() {
    let ids = [u64::MAX, 0, 0, 5, 3];
    let log = ids.map(|id| record(id, &[])).concat();
    let due: Vec<String> =
        ids.iter().enumerate().map(|(at, id)| format!("kept {} 14 {id}", 14 * at)).collect();
    assert_eq!(lines(&log), due);
}

/// A record inside what a damaged one holds is found; inside one that is kept nothing is searched.
#[test]
fn inside_a_value() {
    let mut inner = [0; 20];
    inner[3..17].copy_from_slice(&record(9, &[]));
    let mut log = record(8, &value(inner));
    let length = log.len();
    assert_eq!(lines(&log), [format!("kept 0 {length} 8")]);
    log[length - 1] ^= 1;
    assert_eq!(lines(&log), ["lost 0 23", "kept 23 14 9", &format!("lost 37 {}", length - 37)]);
}

/// What replay would refuse isn't kept, though its checksum is right.
#[test]
fn acceptable_under_the_directory() {
    let unknown = record(1, &[tag::DROP_INDEX, 9, 0]);
    assert_eq!(lines(&unknown), ["lost 0 17"]);
    assert_eq!(lines(&record(1, &[tag::DROP_INDEX, 1, 0])), ["kept 0 17 1"]);
}

/// "At most 64 lines; more gives 9, a short output 10, 9 first".
#[test]
fn room() {
    let pair = [&record(1, &[])[..], &[0]].concat();
    let fits = pair.repeat(32);
    assert_eq!(lines(&fits).len(), 64);
    assert_eq!(salvage(&DIRECTORY, &fits, 32 * 14).number, 0);
    let refused = |log: &[u8], output| {
        let salvaged = salvage(&DIRECTORY, log, output);
        let untouched = crc32fast::hash(&vec![0x5a; output]);
        assert!(salvaged.lines.is_empty() && salvaged.written.is_empty());
        assert_eq!(salvaged.output_sum, untouched);
        salvaged.number
    };
    assert_eq!(refused(&fits, 32 * 14 - 1), 10);
    let one_more = [&fits[..], &record(1, &[])].concat();
    assert_eq!(refused(&one_more, 33 * 14), 9);
    assert_eq!(refused(&one_more, 0), 9);
    let broken = [op::DIR, 1, 0, 1, 0, 8, 2, 0, 0, 0];
    let salvaged = salvage(&broken, &one_more, 0);
    assert_eq!((salvaged.number, salvaged.lines.len()), (13, 0));
}

/// "It copies those records into an output in order": the rest of the output stays.
#[test]
fn output() {
    let records = [record(1, &[]), record(2, &value([7; 20]))];
    let log = [&[0][..], &records[0], &[9, 9], &records[1]].concat();
    let salvaged = salvage(&DIRECTORY, &log, 70);
    assert_eq!(salvaged.written, records.concat());
    let output = [&records.concat()[..], &vec![0x5a; 70 - salvaged.written.len()]].concat();
    assert_eq!(salvaged.output_sum, crc32fast::hash(&output));
}

/// Every single damaged byte of a log of ten records leaves nine of them, and loses what is left of
/// the one it stands in.
#[test]
fn each_byte_of_ten_records() {
    let records: Vec<Vec<u8>> =
        (1..=10).map(|id| record(id, if id % 3 == 0 { &[] } else { &[5, 1, 0] })).collect();
    let log = records.concat();
    let mut start = 0;
    for (place, damaged) in records.iter().enumerate() {
        for at in start..start + damaged.len() {
            for bit in 0..8 {
                let mut bytes = log.clone();
                bytes[at] ^= 1 << bit;
                let told = lines(&bytes);
                let lost = format!("lost {start} {}", damaged.len());
                assert_eq!(told.len(), 10, "{told:?}");
                assert_eq!(told[place], lost);
                assert!(told
                    .iter()
                    .enumerate()
                    .all(|(n, line)| n == place || line.starts_with("kept")));
            }
        }
        start += damaged.len();
    }
}

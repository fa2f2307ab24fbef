//! Records as the Rust writes them, in the order that document 01 has for them. The Rust goes in
//! hash order (a listed difference), so that its items are put into order before the port's bytes
//! are held against them, or are shown item by item.

use crate::{
    directory::{Directory, Kind},
    protocol::{image, op, replaying, tag, to_hex, with_blob, Fields, Script, LONGEST_IMAGE},
};

/// A record that was found whole, its checksum right.
struct Record<'a> {
    /// From tag 1 to the id's end.
    opening: &'a [u8],
    items: Vec<Item<'a>>,
}

struct Item<'a> {
    /// From its tag to its payload's end.
    bytes: &'a [u8],
    order: Order,
}

/// "index, values, reference counts, index drops, reference count drops. Within the first three by
/// table number, then index, ascending; drops in call order, repeats kept."
#[derive(PartialEq, Eq, PartialOrd, Ord)]
struct Order {
    section: usize,
    /// Table and index; none for a drop, so that a sort leaves drops as they are.
    key: Option<(u16, u64)>,
}

const SECTIONS: [u8; 5] =
    [tag::INDEX, tag::VALUE, tag::REF_COUNT, tag::DROP_INDEX, tag::DROP_REF_COUNT];

const OPENING: usize = 9;
const CHECKSUM: usize = 4;

impl<'a> Record<'a> {
    fn parsed(record: &'a [u8], directory: &Directory) -> Result<Record<'a>, String> {
        let covered = record.len().checked_sub(CHECKSUM).ok_or("it is too short")?;
        let (covered, checksum) = record.split_at(covered);
        if crc32fast::hash(covered).to_le_bytes() != checksum {
            return Err("its checksum is wrong".into());
        }
        let inner = covered.strip_suffix(&[tag::END]).ok_or("the end tag isn't where it is due")?;
        if inner.len() < OPENING || inner[0] != tag::BEGIN {
            return Err("it doesn't begin with tag 1 and an id".into());
        }
        let (opening, mut rest) = inner.split_at(OPENING);
        let mut items = Vec::new();
        while !rest.is_empty() {
            let item = Item::at_the_front(rest, directory)
                .ok_or_else(|| format!("no item starts {} bytes before its end", rest.len()))?;
            rest = &rest[item.bytes.len()..];
            items.push(item);
        }
        Ok(Record { opening, items })
    }
}

impl<'a> Item<'a> {
    /// None if the bytes are no item of a table in the directory.
    fn at_the_front(bytes: &'a [u8], directory: &Directory) -> Option<Item<'a>> {
        let section = SECTIONS.iter().position(|tag| *tag == bytes[0])?;
        let number = Fields(bytes.get(1..3)?).u16();
        let is_drop = matches!(bytes[0], tag::DROP_INDEX | tag::DROP_REF_COUNT);
        if is_drop {
            return Some(Item { bytes: &bytes[..3], order: Order { section, key: None } });
        }
        let index = Fields(bytes.get(3..11)?).u64();
        let length = match bytes[0] {
            tag::VALUE => directory.find(Kind::Value, number)?.length as usize,
            tag => {
                let mask = Fields(bytes.get(11..19)?).u64();
                8 + mask.count_ones() as usize * if tag == tag::INDEX { 8 } else { 16 }
            }
        };
        let bytes = bytes.get(..11 + length)?;
        Some(Item { bytes, order: Order { section, key: Some((number, index)) } })
    }
}

/// A record of the Rust's with its items in 01's order: what the port has to write.
pub fn in_order(rust: &[u8], directory: &Directory) -> Result<Vec<u8>, String> {
    let mut record = Record::parsed(rust, directory)?;
    record.items.sort_by(|one, other| one.order.cmp(&other.order));
    let mut bytes = record.opening.to_vec();
    bytes.extend(record.items.iter().flat_map(|item| item.bytes));
    bytes.push(tag::END);
    bytes.extend(crc32fast::hash(&bytes).to_le_bytes());
    Ok(bytes)
}

/// Holds the port's record against the Rust's, and tells which items differ.
pub fn compare_records(rust: &[u8], port: &[u8], directory: &Directory) -> Result<(), String> {
    let due = in_order(rust, directory).map_err(|why| format!("the Rust's record: {why}"))?;
    if due == port {
        return Ok(());
    }
    let theirs =
        Record::parsed(port, directory).map_err(|why| format!("the port's record: {why}"))?;
    let ours = Record::parsed(rust, directory)?;
    if ours.opening != theirs.opening {
        return Err("the ids differ".into());
    }
    let missing = missing_in(&ours, &theirs).map(|item| format!("the port lacks {item}"));
    let needless = missing_in(&theirs, &ours).map(|item| format!("the Rust lacks {item}"));
    let faults: Vec<String> = missing.chain(needless).collect();
    if faults.is_empty() {
        return Err("the items are the same, but not in the order that is due".into());
    }
    Err(faults.join("\n"))
}

/// The items of one record that another has less often, in hex.
fn missing_in<'a>(one: &'a Record, other: &'a Record) -> impl Iterator<Item = String> + 'a {
    let count =
        |record: &Record, bytes| record.items.iter().filter(|item| item.bytes == bytes).count();
    one.items
        .iter()
        .filter(move |item| count(one, item.bytes) > count(other, item.bytes))
        .map(|item| to_hex(item.bytes))
}

/// Commands that walk through a record, validating, up to the end of the log behind it: by them one
/// side's reader takes the other side's record.
pub fn walk_through(record: &[u8], directory: &Directory) -> Result<Script, String> {
    let items = Record::parsed(record, directory)?.items.len();
    let mut script = vec![directory.command(), with_blob(op::LOG, record)];
    script.push([&[op::STEP_AT], &[0; 8][..], &[1]].concat());
    let end_tag_and_end_of_log = 2;
    script.extend(std::iter::repeat_n(vec![op::STEP, 1], items + end_tag_and_end_of_log));
    Ok(script)
}

/// Commands that replay a record onto an image; none if a script has no room for that image.
pub fn replay_of(record: &[u8], directory: &Directory) -> Script {
    let length = directory.image_length();
    if length > LONGEST_IMAGE {
        return Script::new();
    }
    let log = with_blob(op::LOG, record);
    let replay = replaying(op::REPLAY, 0, id_of(record));
    vec![directory.command(), log, image(length, 0xaa), replay, vec![op::IMAGE_SUM]]
}

/// The id behind a record's first tag.
pub fn id_of(record: &[u8]) -> u64 {
    Fields(&record[1..]).u64()
}

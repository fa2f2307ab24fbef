//! The actions of a record, applied by hand as a host with tables of its own would, come to what replay does.

use crate::sample::{directory, record};
use hongsathep::{Action, Directory, Image, Kind, Records};

/// Where a chunk or value lies in the image.
fn place(directory: &Directory, kind: Kind, number: u16, index: u64) -> usize {
    let unit = directory.table(kind, number).unwrap().unit();
    directory.range_of(kind, number).unwrap().start + index as usize * unit
}

fn apply(directory: &Directory, image: &mut [u8], action: Action) {
    let mut set = |at: usize, bytes: &[u8]| image[at..at + bytes.len()].copy_from_slice(bytes);
    match action {
        Action::InsertIndex { table, index, entries } => {
            let chunk = place(directory, Kind::Index, table.0, index);
            entries.iter().for_each(|(slot, entry)| set(chunk + 8 * slot as usize, entry));
        }
        Action::InsertValue { table, index, value } => set(place(directory, Kind::Value, table.0, index), value),
        Action::InsertRefCount { table, index, entries } => {
            let chunk = place(directory, Kind::RefCount, table.0, index);
            entries.iter().for_each(|(slot, entry)| set(chunk + 16 * slot as usize, entry));
        }
        Action::DropTable(table) => image[directory.range_of(Kind::Index, table.0).unwrap()].fill(0),
        Action::DropRefCountTable(table) => image[directory.range_of(Kind::RefCount, table.0).unwrap()].fill(0),
        Action::BeginRecord { .. } | Action::EndRecord => unreachable!("they are left out"),
    }
}

#[test]
fn by_hand_and_by_replay() {
    let directory = directory();
    let log: Vec<u8> = (1..200).flat_map(|id| record(&directory, id)).collect();
    let (mut by_hand, mut by_replay) = (Image::new(&directory), Image::new(&directory));
    let mut count = 0;
    for record in Records::new(&directory, &log).expecting(1).map(Result::unwrap) {
        for action in record.actions() {
            apply(&directory, by_hand.bytes_mut(), action);
            count += 1;
        }
        by_replay.replay_record(&record).unwrap();
        assert!(by_hand.bytes() == by_replay.bytes(), "record {}", record.id());
    }
    assert!(count > 199);
}

//! Random directories, and ways to break their rules.

use crate::{
    directory::{Directory, Kind, Table},
    random::Random,
};

/// Up to 16 tables of all kinds.
pub fn random_directory(random: &mut Random) -> Directory {
    let mut directory = Directory::default();
    let any = random.between(0, Directory::MOST_TABLES);
    for _ in 0..random.pick(&[any, any, any, Directory::MOST_TABLES]) {
        add_table(random, &mut directory, &Kind::ALL);
    }
    directory
}

/// The same with fewer places, so that the image has at most so many bytes, 16 chunks or more.
pub fn directory_for_image(random: &mut Random, most_bytes: usize) -> Directory {
    let mut directory = random_directory(random);
    let share = most_bytes / directory.tables.len().max(1);
    for table in &mut directory.tables {
        table.count = end_or_between(random, 1, (share / table.place_bytes()).min(4096));
    }
    directory
}

/// A few tables of a few places, so that keys repeat.
pub fn crowded_directory(random: &mut Random) -> Directory {
    let mut directory = Directory::default();
    for _ in 0..random.between(1, 3) {
        add_table(random, &mut directory, &Kind::ALL);
    }
    for table in &mut directory.tables {
        table.count = random.between(1, 3) as u16;
    }
    directory
}

/// With more places than a list has room for; the image of every other such directory is one that a
/// script has room for.
pub fn wide_directory(random: &mut Random) -> Directory {
    let most = random.pick(&[64, 4096]);
    directory_of_all_kinds(random, 64, most)
}

/// One table or two of each kind, each with so many places.
pub fn directory_of_all_kinds(random: &mut Random, least: usize, most: usize) -> Directory {
    let mut directory = Directory::default();
    for kind in Kind::ALL {
        for _ in 0..random.between(1, 2) {
            add_table(random, &mut directory, &[kind]);
        }
    }
    for table in &mut directory.tables {
        table.count = random.between(least, most) as u16;
    }
    directory
}

/// Adds a table of one of the kinds, under a number that the kind doesn't have yet.
fn add_table(random: &mut Random, directory: &mut Directory, kinds: &[Kind]) {
    let kind = random.pick(kinds);
    let number = loop {
        let any = random.number() as u16;
        // Few numbers, so that one often stands under several kinds.
        let number = random.pick(&[0, 1, 2, 3, 0x0100, 0x0302, 0xffff, any]);
        if directory.find(kind, number).is_none() {
            break number;
        }
    };
    let length = match kind {
        Kind::Value => end_or_between(random, 1, 512),
        Kind::Index | Kind::RefCount => 0,
    };
    let column = random.below(8) as u8;
    let count = end_or_between(random, 1, 4096);
    directory.tables.push(Table { kind, number, column, count, length });
}

/// Either end as often as all that lies between them.
fn end_or_between(random: &mut Random, least: usize, most: usize) -> u16 {
    let between = random.between(least, most);
    random.pick(&[least, between, most]) as u16
}

/// Changes to a directory, each of which breaks one rule of document 01 and no other.
pub const BREAKS: [fn(&mut Random, &mut Directory); 8] = [
    one_table_too_many,
    number_twice,
    column_too_large,
    no_places,
    too_many_places,
    values_without_length,
    values_too_long,
    length_without_values,
];

fn one_table_too_many(random: &mut Random, directory: &mut Directory) {
    while directory.tables.len() <= Directory::MOST_TABLES {
        add_table(random, directory, &Kind::ALL);
    }
}

fn number_twice(random: &mut Random, directory: &mut Directory) {
    let again = *a_table(random, directory, &Kind::ALL);
    let place = random.between(0, directory.tables.len());
    directory.tables.insert(place, Table { column: 0, count: 1, ..again });
}

fn column_too_large(random: &mut Random, directory: &mut Directory) {
    a_table(random, directory, &Kind::ALL).column = 8;
}

fn no_places(random: &mut Random, directory: &mut Directory) {
    a_table(random, directory, &Kind::ALL).count = 0;
}

fn too_many_places(random: &mut Random, directory: &mut Directory) {
    a_table(random, directory, &Kind::ALL).count = 4097;
}

fn values_without_length(random: &mut Random, directory: &mut Directory) {
    a_table(random, directory, &[Kind::Value]).length = 0;
}

fn values_too_long(random: &mut Random, directory: &mut Directory) {
    a_table(random, directory, &[Kind::Value]).length = 513;
}

fn length_without_values(random: &mut Random, directory: &mut Directory) {
    let table = a_table(random, directory, &[Kind::Index, Kind::RefCount]);
    table.length = random.pick(&[1, 8, 16, 512]);
}

/// A table of one of the kinds. The directory gets one if it has none, and has room for one more.
fn a_table<'a>(random: &mut Random, directory: &'a mut Directory, kinds: &[Kind]) -> &'a mut Table {
    directory.tables.truncate(Directory::MOST_TABLES - 2);
    if !directory.tables.iter().any(|table| kinds.contains(&table.kind)) {
        add_table(random, directory, kinds);
    }
    let fitting = directory.tables.iter_mut().filter(|table| kinds.contains(&table.kind));
    let mut fitting: Vec<&mut Table> = fitting.collect();
    let place = random.below(fitting.len());
    fitting.swap_remove(place)
}

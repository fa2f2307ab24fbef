//! Whatever words, lengths and places are handed in: an answer, never a crash, and not a word changed outside of what was
//! lent, or by a refusal.

use crate::sample::{directory, fill, record, Random};
use hongsathep::{raw::*, *};
use std::{env, fmt::Debug};

/// Memory to lend, with a margin that must stay as it is. Under valgrind there is none: it sees the bounds itself.
#[derive(Clone, PartialEq)]
struct Lent<T>(Vec<T>, usize);

impl<T: Copy + PartialEq + From<u8> + Debug> Lent<T> {
    fn of(content: Vec<T>) -> Lent<T> {
        let margin = if env::var_os("HONGSATHEP_BOUNDS").is_some() { 0 } else { 64 };
        let edge = vec![T::from(0xa5); margin];
        let mut all = Vec::with_capacity(content.len() + 2 * margin);
        [&edge[..], &content, &edge].iter().for_each(|part| all.extend_from_slice(part));
        Lent(all, margin)
    }

    fn lend(&mut self) -> &mut [T] {
        let end = self.0.len() - self.1;
        &mut self.0[self.1..end]
    }

    fn margins_stand(&self) -> bool {
        let (front, back) = (&self.0[..self.1], &self.0[self.0.len() - self.1..]);
        front.iter().chain(back).all(|part| *part == T::from(0xa5))
    }
}

/// All that calls are lent.
#[derive(Clone, PartialEq)]
struct World {
    tables: Lent<u64>,
    reader: Lent<u64>,
    list: Lent<u64>,
    items: Lent<u64>,
    overlays: Lent<u64>,
    words: Lent<u64>,
    queues: Lent<u64>,
    lengths: Lent<u64>,
    remove: Lent<u64>,
    listed: Lent<u64>,
    chunks: Lent<u8>,
    bytes: Lent<u8>,
    log: Lent<u8>,
    image: Lent<u8>,
    data: Lent<u8>,
    names: Lent<u8>,
    heads: Lent<u8>,
    name_lengths: Vec<usize>,
    next: u64,
}

fn hostile_number(random: &mut Random) -> u64 {
    match random.below(8) {
        0 => u64::MAX,
        1 => 1 << 63,
        2 => 1 << 32,
        3 => random.next(),
        4 => 65_536,
        5 => random.below(600),
        _ => random.below(4),
    }
}

/// A right state, or one with some words wrong, or of another length, or no state at all.
fn words(random: &mut Random, right: &[u64]) -> Lent<u64> {
    let mut words = right.to_vec();
    match random.below(8) {
        0..=2 => {}
        3 | 4 => (0..=random.below(3)).for_each(|_| {
            let place = random.below(words.len().max(1) as u64) as usize;
            let number = hostile_number(random);
            words.iter_mut().skip(place).take(1).for_each(|word| *word = number);
        }),
        5 => words.resize([0, 1, words.len().saturating_sub(1), words.len() + 1][random.below(4) as usize], 0),
        6 => words.iter_mut().for_each(|word| *word = hostile_number(random)),
        _ => words = (0..random.below(1000)).map(|_| hostile_number(random)).collect(),
    }
    Lent::of(words)
}

fn bytes(random: &mut Random, right: &[u8]) -> Lent<u8> {
    let length = right.len();
    match random.below(6) {
        0..=3 => Lent::of(right.to_vec()),
        4 => Lent::of(right[..[0, 1.min(length), length.saturating_sub(1)][random.below(3) as usize]].to_vec()),
        _ => {
            let length = random.below(2000) as usize;
            Lent::of(random.bytes(length))
        }
    }
}

impl World {
    fn new(random: &mut Random) -> World {
        let directory = directory();
        let (mut overlays, mut queues) = (Overlays::new(), Queues::new());
        let mut next = std::num::NonZeroU64::MIN;
        let mut log = Vec::new();
        let mut room = vec![0; LONGEST_RECORD];
        for _ in 0..random.below(6) {
            let mut list = ChangeList::begin(&directory, &mut next).unwrap();
            fill(&mut list, random.next());
            let ended = overlays.end_record(&directory, &list, &mut queues, next, &mut room).unwrap();
            log.extend(&room[..ended.size]);
        }
        let mut list = ChangeList::begin(&directory, &mut next).unwrap();
        fill(&mut list, random.next());
        let (head, items, chunks) = list.words();
        let (overlays_head, overlays_words, overlays_bytes) = overlays.words();
        World {
            tables: words(random, directory.words()),
            reader: words(random, LogReader::new(&directory, &log).words()),
            list: words(random, head),
            items: words(random, items),
            chunks: bytes(random, chunks),
            overlays: words(random, overlays_head),
            words: words(random, overlays_words),
            bytes: bytes(random, overlays_bytes),
            queues: words(random, queues.words()),
            log: bytes(random, &log),
            image: bytes(random, &vec![0; directory.image_length()]),
            data: bytes(random, &[9; 512]),
            names: bytes(random, b"log1log2logxlog70000"),
            name_lengths: vec![4, 4, 4, [8, hostile_number(random) as usize][random.below(2) as usize]],
            lengths: words(random, &[20, 3, 4, 9]),
            heads: bytes(random, &[1; 36]),
            remove: words(random, &[0; 4]),
            listed: words(random, &[7; SALVAGE_WORDS]),
            next: [next.get(), hostile_number(random)][random.below(2) as usize],
        }
    }

    fn margins_stand(&self) -> bool {
        let words = [&self.tables, &self.reader, &self.list, &self.items, &self.overlays, &self.words, &self.queues];
        let more = [&self.lengths, &self.remove, &self.listed];
        let bytes = [&self.chunks, &self.bytes, &self.log, &self.image, &self.data, &self.names, &self.heads];
        words.iter().chain(&more).all(|lent| lent.margins_stand()) && bytes.iter().all(|lent| lent.margins_stand())
    }

    /// One call of them all; its answer, and whether any other number than 0 leaves everything as it was.
    fn call(&mut self, which: u64, random: &mut Random) -> (u64, bool) {
        let World { tables, reader, list, items, overlays, words, queues, lengths, remove, .. } = self;
        let World { chunks, bytes, log, image, data, names, heads, name_lengths, next, listed, .. } = self;
        let (t, r, l, i) = (tables.lend(), reader.lend(), list.lend(), items.lend());
        let (o, w, q, c, b) = (overlays.lend(), words.lend(), queues.lend(), chunks.lend(), bytes.lend());
        let (log, image, data) = (log.lend(), image.lend(), data.lend());
        let (table, index) = (random.below(9) as u16, hostile_number(random));
        let (position, expected) = (hostile_number(random) as usize, hostile_number(random));
        let [mut x, mut y, mut z, mut u, mut v, mut fault] = [77; 6];
        let (mut empty, mut gone) = ([77; 64], [77; 64]);
        let answer = match which {
            0 => told(hongsathep_checksum(log)),
            1 => hongsathep_directory_kept(t),
            2 => told(hongsathep_image_length(t)),
            3 => told(hongsathep_table_start(t, position)),
            4 => hongsathep_reader_new(r, position, true),
            5 | 6 => hongsathep_next(t, log, r, &mut x, &mut y, &mut z, &mut u, &mut v, &mut fault),
            7 => hongsathep_replay(t, log, position, expected, image, &mut x, &mut fault),
            8 => return (hongsathep_run(t, log, position, expected, image, &mut x, &mut y, &mut fault), false),
            9 => return (hongsathep_run(t, log, 0, 1, image, &mut x, &mut y, &mut fault), false),
            10 => hongsathep_list_new(l, expected),
            11 => hongsathep_insert_index(t, l, i, c, table, index, expected as u8, data),
            12 => hongsathep_insert_value(t, l, i, c, table, index, &data[..20.min(data.len())]),
            13 => hongsathep_insert_ref_count(t, l, i, c, table, index, expected as u8, data),
            14 => hongsathep_drop_table(t, l, i, c, table),
            15 => hongsathep_drop_ref_count_table(t, l, i, c, table),
            16 => hongsathep_record_size(t, l, i, c, &mut x),
            17 => hongsathep_flush_to_file(t, l, i, c, image, &mut x),
            18 => hongsathep_local_values_changes(l, i, c, table, &mut x, &mut y),
            19 => hongsathep_overlays_new(o),
            20 => told(hongsathep_last_record_id(o, index)),
            21 => hongsathep_lookup(index, o, w, b, table, expected, &mut x, &mut y, &mut z),
            22 => hongsathep_lookup_listed(index, l, i, c, o, w, b, table, expected, &mut x, &mut y, &mut z),
            23 => hongsathep_value(o, w, b, table, index, data, &mut x),
            24 => hongsathep_value_listed(l, i, c, o, w, b, table, index, data, &mut x),
            25 => hongsathep_begin_record(next, l),
            26 => hongsathep_end_record(t, l, i, c, o, w, b, q, *next, image, &mut x, &mut y, &mut z),
            27 | 28 => {
                let position = (which == 28) as usize * position;
                hongsathep_end_read(t, log, position, o, w, b, next, &mut x, &mut y, &mut fault)
            }
            29 => hongsathep_clear_replay_logs(o, w, b, q),
            30 => hongsathep_queues_new(q),
            31 => {
                let (names, lengths, heads) = (names.lend(), lengths.lend(), heads.lend());
                hongsathep_open(names, name_lengths, lengths, heads, remove.lend(), &mut x, q)
            }
            32 => hongsathep_flush_one(q, index, &mut x, &mut y),
            33 => match hongsathep_read_next(q, log, position, true, &mut x, r) {
                1 => 0,
                answer => answer,
            },
            34 => hongsathep_replay_next(q, &mut x, &mut y),
            35 => hongsathep_clean_logs(q, position, &mut x, &mut empty, &mut y, &mut gone, &mut z),
            36 => hongsathep_kill_logs(q, &mut gone, &mut y),
            37 => told(hongsathep_replay_record_id(q, &mut x)),
            38 => told(hongsathep_num_dirty_logs(q)),
            39 => told(hongsathep_has_log_files_to_read(q)),
            _ => hongsathep_salvage(t, log, image, listed.lend(), &mut x, &mut y),
        };
        (answer, true)
    }
}

/// A call that only tells something refuses nothing.
fn told<T>(_: T) -> u64 {
    0
}

#[test]
fn words_and_lengths_of_all_sorts() {
    let rounds = env::var("HONGSATHEP_ROUNDS").map_or(400, |rounds| rounds.parse().unwrap());
    let mut random = Random(13);
    let mut answers = [0u64; 15];
    for round in 0..rounds {
        let mut world = World::new(&mut random);
        for which in 0..41 {
            let before = world.clone();
            let (answer, is_leaving) = world.call(which, &mut random);
            assert!(answer <= 14, "round {round}, call {which}: {answer}");
            assert!(world.margins_stand(), "round {round}, call {which}");
            assert!(
                answer == 0 || !is_leaving || world == before,
                "round {round}, call {which}: {answer} changed something"
            );
            answers[answer as usize] += 1;
        }
    }
    println!("{rounds} rounds of 41 calls; how often each number was answered: {answers:?}");
    assert!(answers[0] > rounds && answers[13] > rounds);
}

#[test]
fn arguments_of_all_sorts() {
    let directory = directory();
    let mut random = Random(14);
    let log: Vec<u8> = (1..4).flat_map(|id| record(&directory, id)).collect();
    let (mut list, mut image, mut queues) = (ChangeList::new(&directory, 1), Image::new(&directory), Queues::new());
    let (mut overlays, mut next) = (Overlays::new(), std::num::NonZeroU64::MAX);
    for _ in 0..4_000 {
        let (place, id) = (hostile_number(&mut random) as usize, hostile_number(&mut random));
        let (table, slot) = (random.below(9) as u16, random.next() as u8);
        let length = random.below(1100) as usize;
        let data = random.bytes(length);
        let log = if random.below(2) == 0 { &log[..] } else { &data };
        let _ = list.insert_index(IndexTableId(table), id, slot, &data);
        let _ = list.insert_value(ValueTableId(table), id, &data);
        let _ = list.insert_ref_count(RefCountTableId(table), id, slot, &data);
        let _ = (list.drop_table(IndexTableId(table)), list.drop_ref_count_table(RefCountTableId(table)));
        let _ = (list.values(ValueTableId(table)).count(), list.record(), list.write(&mut data.clone()));
        let _ = (image.replay(log, place, id), image.run(log, place, id), image.run_stream(log, id));
        let _ = (image.index(IndexTableId(table), id), image.value(ValueTableId(table), id));
        let _ = LogReader::at(&directory, log, place, true).count();
        let _ = Records::at(&directory, log, place).expecting(id).count();
        let _ = (salvage(&directory, log), salvage_into(&directory, log, &mut data.clone()));
        let _ = Records::new(&directory, log).flatten().map(|record| record.actions().count()).sum::<usize>();
        let _ = (overlays.with(&list).value(ValueTableId(table), id), overlays.last_record_id(id));
        let _ = overlays.end_record(&directory, &list, &mut queues, next, &mut data.clone());
        let _ = overlays.end_read(&directory, log, place, &mut next);
        let _ = (queues.read_next(log, place, true), queues.flush_one(id), queues.clean_logs(place));
        let _ = Queues::open(&[Found { name: &data, length: id, head: &data }; 3]);
        let _ = String::from_utf8_lossy(&data).parse::<Directory>();
        let _ = Directory::builder().value(table, slot, place as u16, id as u16).index(table, 0, 1).build();
        if list.record_size() > 40_000 {
            list = ChangeList::new(&directory, id);
        }
    }
}

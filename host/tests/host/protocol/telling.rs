//! What the words of a state hold, as the protocol tells it.

use super::fields::Row;

/// The parts of a memory: words, bytes and room of each kind.
pub struct Part {
    pub room: usize,
    pub words: usize,
    pub bytes: usize,
    pub unit: usize,
}

const fn part(room: usize, words: usize, bytes: usize, unit: usize) -> Part {
    Part { room, words, bytes, unit }
}

pub const LIST: [Part; 3] = [part(32, 0, 0, 512), part(32, 160, 16384, 512), part(16, 320, 32768, 1024)];
pub const SHARED: [Part; 3] = [part(256, 0, 0, 512), part(256, 1280, 131072, 512), part(256, 2560, 262144, 1024)];

/// The keys of all kinds, in order; the ids of shared ones alone.
pub fn keys(mut row: Row, parts: &[Part; 3], counts: &[u64], words: &[u64], bytes: &[u8], with_ids: bool) -> Row {
    for (kind, part) in parts.iter().enumerate() {
        let order = part.words + 4 * part.room;
        row = row.number(counts[kind], 2);
        for place in &words[order..order + counts[kind] as usize] {
            let place = *place as usize;
            let key = &words[part.words + 4 * place..];
            let start = part.bytes + part.unit * place;
            let (mask, length) = if kind == 1 { (0, key[3] as usize) } else { (key[3], part.unit) };
            row = row.number(key[0], 2).number(key[1], 8);
            row = if with_ids { row.number(key[2], 8) } else { row };
            row = row.number(mask, 8).number(hongsathep::checksum(&bytes[start..start + length]).into(), 4);
        }
    }
    row
}

pub fn list_sum(head: &[u64], items: &[u64], chunks: &[u8]) -> Vec<u8> {
    let row = keys(Row::default().number(head[0], 8), &LIST, &head[1..4], items, chunks, false);
    let dropped = |at: usize| &head[at + 1..at + 1 + head[at] as usize];
    row.nums(dropped(4)).nums(dropped(21)).0
}

pub fn overlays(head: &[u64], words: &[u64], bytes: &[u8]) -> Vec<u8> {
    keys(Row::default(), &SHARED, head, words, bytes, true).0
}

/// STATE, of words.
pub fn state(queues: &[u64], next: u64, last_ids: &[u64]) -> Vec<u8> {
    let if_there = |at: usize, number: u64| if queues[at] == 1 { number } else { 0 };
    let queue = |at: usize| &queues[at + 1..at + 1 + queues[at] as usize];
    let row = Row::of(queues[0]).number(if_there(0, queues[1]), 4).number(if_there(0, queues[2]), 8);
    let row = row.number(queues[68], 1).number(if_there(68, queues[69]), 4);
    let row = row.nums(queue(3)).nums(queue(70)).nums(queue(135));
    let replay = queue(200).iter().zip(&queues[265..329]);
    let row = replay.fold(row.number(queues[200], 2), |row, (file, id)| row.number(*file, 4).number(*id, 8));
    let row = row.number(queues[329], 4).number(next, 8).number(queues[330], 1);
    last_ids.iter().fold(row, |row, id| row.number(*id, 8)).0
}

//! Logs to be read.
use super::tables::VALUE;

/// What a log's records say.
#[derive(Clone, Copy)]
pub enum Mix {
    /// 789 bytes: 4 index chunks of 2 slots, 8 values of 64 bytes, 1 reference count
    All,
    /// 25 values of 20 bytes
    SmallValues,
    /// 4 index chunks and 2 reference counts, each of so many slots, 8 apart or all of them
    Slots(u64),
}

/// The bytes of a record of `Mix::All`.
pub const RECORD: usize = 14 + 4 * (19 + 16) + 8 * (11 + VALUE) + 19 + 16;

fn number(o: &mut Vec<u8>, x: u64, n: usize) {
    o.extend_from_slice(&x.to_le_bytes()[..n]);
}

fn payload(o: &mut Vec<u8>, len: usize, fill: u8) {
    o.extend((0..len).map(|k| fill.wrapping_add(k as u8)));
}

fn chunk(o: &mut Vec<u8>, tag: u8, table: u64, index: u64, mask: u64, fill: u8) {
    o.push(tag);
    number(o, table, 2);
    number(o, index, 8);
    number(o, mask, 8);
    payload(o, mask.count_ones() as usize * if tag == 2 { 8 } else { 16 }, fill);
}

fn value(o: &mut Vec<u8>, table: u64, index: u64, len: usize, fill: u8) {
    o.push(3);
    number(o, table, 2);
    number(o, index, 8);
    payload(o, len, fill);
}

fn mask(slots: u64, n: u64) -> u64 {
    (0..slots).fold(0, |m, k| m | 1 << ((n + k * (64 / slots)) % 64))
}

fn body(o: &mut Vec<u8>, mix: Mix, n: u64) {
    let fill = (n * 31) as u8;
    match mix {
        Mix::All => {
            for k in 0..4 {
                chunk(o, 2, 1, (n * 4 + k) % 256, 1 << (n % 64) | 1 << ((n + 7) % 64), fill);
            }
            for k in 0..8 {
                value(o, 2, (n * 8 + k) % 256, VALUE, fill);
            }
            chunk(o, 6, 3, n % 256, 1 << (n % 64), fill);
        }
        Mix::SmallValues => {
            for k in 0..25 {
                value(o, 2, (n * 25 + k) % 256, 20, fill);
            }
        }
        Mix::Slots(slots) => {
            for k in 0..4 {
                chunk(o, 2, 1, (n * 4 + k) % 256, mask(slots, n + k), fill);
            }
            for k in 0..2 {
                chunk(o, 6, 3, (n * 2 + k) % 256, mask(slots, n + k), fill);
            }
        }
    }
}

/// A log of at least so many bytes, ids from 1 on, and how many records it has.
pub fn log_of(mix: Mix, bytes: usize) -> (Vec<u8>, u64) {
    let mut o = Vec::with_capacity(bytes + 8192);
    let mut n = 0;
    while o.len() < bytes {
        let at = o.len();
        o.push(1);
        number(&mut o, n + 1, 8);
        body(&mut o, mix, n);
        o.push(4);
        let mut h = crc32fast::Hasher::new();
        h.update(&o[at..]);
        number(&mut o, h.finalize() as u64, 4);
        n += 1;
    }
    (o, n)
}

/// 16 orders of the keys below a number, 256 positions each: list n has the positions from 8n on of one of them for its values, and from 4n on
/// for its chunks. No processor learns them by heart.
pub fn places(keys: u64) -> Vec<u64> {
    let mut random = Random(12345);
    let mut places = Vec::new();
    for _ in 0..16 {
        let mut order: Vec<u64> = (0..keys).collect();
        for i in (1..keys as usize).rev() {
            order.swap(i, random.below(i as u64 + 1) as usize);
        }
        places.extend(order.iter().cycle().take(256));
    }
    places
}

/// The key of list n at a position.
pub fn key(places: &[u64], n: u64, position: u64) -> u64 {
    let order = n / 32 % (places.len() as u64 / 256);
    places[(256 * order + position % 256) as usize]
}

struct Random(u64);

impl Random {
    fn below(&mut self, most: u64) -> u64 {
        self.0 = self.0.wrapping_mul(6364136223846793005).wrapping_add(1442695040888963407);
        (self.0 >> 33) % most
    }
}

/// So many numbers of a span at random.
pub fn at_random(from: u64, span: u64, count: usize) -> Vec<u64> {
    let mut random = Random(12345);
    (0..count).map(|_| from + random.below(span)).collect()
}

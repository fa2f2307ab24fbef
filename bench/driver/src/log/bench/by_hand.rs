//! What a replay by document 01 costs in plain Rust on slices, with crc32fast: all of its tests, two passes a record.
use super::tables::Tables;

fn number(l: &[u8], p: usize, n: usize) -> u64 {
    let mut b = [0u8; 8];
    b[..n].copy_from_slice(&l[p..p + n]);
    u64::from_le_bytes(b)
}

/// The place behind the record at `pos`, or an answer.
fn checked(l: &[u8], d: &Tables, pos: usize, id: u64) -> Result<usize, u32> {
    if l.len() - pos < 9 {
        return Err(1);
    }
    if l[pos] != 1 {
        return Err(4);
    }
    if number(l, pos + 1, 8) != id {
        return Err(5);
    }
    let mut p = pos + 9;
    loop {
        let left = l.len() - p;
        if left == 0 {
            return Err(2);
        }
        match l[p] {
            tag @ (2 | 3 | 6) => {
                if left < 11 {
                    return Err(2);
                }
                let kind = if tag == 6 { 2 } else { tag as u64 - 2 };
                let Some((_, count, unit)) = d.find(kind, number(l, p + 1, 2)) else {
                    return Err(6);
                };
                if number(l, p + 3, 8) >= count {
                    return Err(7);
                }
                let mut n = unit;
                if tag != 3 {
                    if left < 19 {
                        return Err(2);
                    }
                    n = 8 + number(l, p + 11, 8).count_ones() as usize * (unit / 64);
                }
                if left - 11 < n {
                    return Err(2);
                }
                p += 11 + n;
            }
            4 => {
                if left < 5 {
                    return Err(2);
                }
                let mut h = crc32fast::Hasher::new();
                h.update(&l[pos..p + 1]);
                if number(l, p + 1, 4) as u32 != h.finalize() {
                    return Err(8);
                }
                return Ok(p + 5);
            }
            _ => return Err(3),
        }
    }
}

/// The slots of a mask, from the payload at `p`; the place behind it.
#[inline]
pub fn put_slots(
    image: &mut [u8],
    base: usize,
    mask: u64,
    width: usize,
    l: &[u8],
    p: usize,
) -> usize {
    let (mut m, mut p) = (mask, p);
    while m != 0 {
        let at = base + m.trailing_zeros() as usize * width;
        image[at..at + width].copy_from_slice(&l[p..p + width]);
        m &= m - 1;
        p += width;
    }
    p
}

fn apply(l: &[u8], d: &Tables, pos: usize, image: &mut [u8]) {
    let mut p = pos + 9;
    while l[p] != 4 {
        let kind = if l[p] == 6 { 2 } else { l[p] as u64 - 2 };
        let (at, _, unit) = d.find(kind, number(l, p + 1, 2)).unwrap();
        let base = at + number(l, p + 3, 8) as usize * unit;
        if kind == 1 {
            image[base..base + unit].copy_from_slice(&l[p + 11..p + 11 + unit]);
            p += 11 + unit;
        } else {
            p = put_slots(image, base, number(l, p + 11, 8), unit / 64, l, p + 19);
        }
    }
}

/// A run from 0 with ids from 1 on, applied to an image if there is one: answer, position, records.
pub fn run(l: &[u8], d: &Tables, mut image: Option<&mut [u8]>) -> (u32, usize, u64) {
    let (mut pos, mut count) = (0, 0);
    loop {
        match checked(l, d, pos, count + 1) {
            Err(answer) => return (answer, pos, count),
            Ok(end) => {
                if let Some(image) = &mut image {
                    apply(l, d, pos, image);
                }
                pos = end;
                count += 1;
            }
        }
    }
}

//! The checksum beside crc32fast, with the machine's instructions for it and without.
use super::figures::{best, Figures};
use super::{port, Setting};
use std::hint::black_box;

fn fast(b: &[u8]) -> u32 {
    let mut h = crc32fast::Hasher::new();
    h.update(b);
    h.finalize()
}

fn plain(b: &[u8]) -> u32 {
    let mut h = crc32fast::Hasher::internal_new_baseline(0, 0);
    h.update(b);
    h.finalize()
}

fn noise(n: usize) -> Vec<u8> {
    let mut s = 12345u64;
    (0..n)
        .map(|_| {
            s ^= s << 13;
            s ^= s >> 7;
            s ^= s << 17;
            s as u8
        })
        .collect()
}

pub fn rows(_: &Setting, f: &mut Figures) {
    let data = noise(1 << 20);
    for n in (0..300).chain([1000, 1023, 1024, 1040, 4095, 50526]) {
        assert_eq!(port::checksum(&data[1..1 + n]), fast(&data[1..1 + n]));
    }
    for n in [64usize, 789, 1024, 65536] {
        let k = (1 << 20) / n;
        let go = |sum: fn(&[u8]) -> u32| {
            let s = best(|| {
                for _ in 0..k {
                    black_box(sum(black_box(&data[..n])));
                }
            });
            (n * k) as f64 / 1e6 / s
        };
        let ours = go(port::checksum);
        f.speed(&format!("{n} bytes (Rust: crc32fast with PCLMUL)"), ours, go(fast));
        f.speed(&format!("{n} bytes (Rust: crc32fast without)"), ours, go(plain));
    }
}

//! A directory, as the words that the calls take: kind, number, column, count, length, marks.

/// The bytes of a value in most rows.
pub const VALUE: usize = 64;

#[derive(Clone)]
pub struct Tables(Vec<[u64; 6]>);

impl Tables {
    /// An index, a value and a reference count table of 256 chunks or values: numbers 1, 2 and 3.
    pub fn three() -> Tables {
        Tables(vec![[0, 1, 0, 256, 0, 0], [1, 2, 1, 256, VALUE as u64, 0], [2, 3, 2, 256, 0, 0]])
    }

    /// One table of 256 values of 20 bytes: number 2.
    pub fn small_values() -> Tables {
        Tables(vec![[1, 2, 1, 256, 20, 0]])
    }

    /// The same behind tables of one chunk or value, 16 in all.
    pub fn crowded(&self) -> Tables {
        let mut v = Vec::new();
        for i in 0..16 - self.0.len() as u64 {
            v.push([i % 3, 100 + i, 0, 1, if i % 3 == 1 { 8 } else { 0 }, 0]);
        }
        v.extend(self.0.iter());
        Tables(v)
    }

    pub fn words(&self) -> Vec<u64> {
        self.0.concat()
    }

    fn unit(t: &[u64; 6]) -> usize {
        match t[0] {
            0 => 512,
            1 => t[4] as usize,
            _ => 1024,
        }
    }

    /// A zeroed image.
    pub fn image(&self) -> Vec<u8> {
        vec![0; self.0.iter().map(|t| Self::unit(t) * t[3] as usize).sum()]
    }

    /// Where a table begins in the image, its count, and the bytes of a chunk or value.
    #[inline]
    pub fn find(&self, kind: u64, number: u64) -> Option<(usize, u64, usize)> {
        let mut at = 0;
        for t in &self.0 {
            if t[0] == kind && t[1] == number {
                return Some((at, t[3], Self::unit(t)));
            }
            at += Self::unit(t) * t[3] as usize;
        }
        None
    }
}

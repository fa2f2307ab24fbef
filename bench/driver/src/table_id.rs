//! Table ids: a number, and beside it, by one read, the table's place among its kind and its column.
use std::sync::atomic::{AtomicU32, Ordering::Relaxed};

pub struct Kind {
    /// 0 where there is no such table, else 1 + its place + (its column << 16)
    place: [AtomicU32; 65536],
    number: [AtomicU32; 65536],
    count: AtomicU32,
}

impl Kind {
    const fn new() -> Kind {
        Kind {
            place: [const { AtomicU32::new(0) }; 65536],
            number: [const { AtomicU32::new(0) }; 65536],
            count: AtomicU32::new(0),
        }
    }

    pub fn register(&self, number: u16, column: u8) {
        let n = self.count.fetch_add(1, Relaxed);
        self.number[n as usize].store(number as u32, Relaxed);
        self.place[number as usize].store(1 + n + ((column as u32) << 16), Relaxed);
    }

    #[inline]
    pub fn log_index(&self, number: u16) -> usize {
        match self.place[number as usize].load(Relaxed) & 0xffff {
            0 => usize::MAX,
            n => n as usize - 1,
        }
    }

    pub fn number(&self, place: usize) -> u16 {
        self.number[place].load(Relaxed) as u16
    }

    pub fn column(&self, number: u16) -> u8 {
        (self.place[number as usize].load(Relaxed) >> 16) as u8
    }

    pub fn count(&self) -> usize {
        self.count.load(Relaxed) as usize
    }
}

pub static INDEX: Kind = Kind::new();
pub static VALUE: Kind = Kind::new();
pub static REF_COUNT: Kind = Kind::new();

macro_rules! table_id {
    ($name:ident, $kind:ident, $max:ident) => {
        #[derive(Clone, Copy, Debug, PartialEq, Eq, Hash, PartialOrd, Ord)]
        pub struct $name(u16);
        impl $name {
            pub fn from_u16(n: u16) -> Self {
                $name(n)
            }
            pub fn as_u16(&self) -> u16 {
                self.0
            }
            pub fn col(&self) -> crate::column::ColId {
                crate::table_id::$kind.column(self.0)
            }
            #[inline]
            pub fn log_index(&self) -> usize {
                crate::table_id::$kind.log_index(self.0)
            }
            pub fn from_log_index(i: usize) -> Self {
                $name(crate::table_id::$kind.number(i))
            }
            pub fn $max(_columns: usize) -> usize {
                crate::table_id::$kind.count()
            }
        }
        impl std::fmt::Display for $name {
            fn fmt(&self, f: &mut std::fmt::Formatter) -> std::fmt::Result {
                write!(f, "{}", self.0)
            }
        }
    };
}
pub(crate) use table_id;

//! The functions of ../../../../calls.rt.txt, under the C interface: a slice goes as its address and its length. Each wrapper compares what is
//! answered.
use super::made::{places, RECORD};

/// A slice that is handed over.
pub struct Slice(pub(super) *const u8, pub(super) usize);

pub fn lent<T>(x: &[T]) -> Slice {
    Slice(x.as_ptr() as *const u8, x.len())
}

pub fn open<T>(x: &mut [T]) -> Slice {
    Slice(x.as_mut_ptr() as *const u8, x.len())
}

pub type S<'a> = &'a Slice;

/// Functions of C, each under its name with a `S` for every slice.
macro_rules! foreign {
    ($(fn $name:ident($($parameters:tt)*) $(-> $result:ty)?;)*) => {
        $(foreign!(@ $name [$($result)?] [] [] [] $($parameters)*,);)*
    };
    (@ $name:ident $result:tt [$($own:tt)*] [$($c:tt)*] [$($handed:tt)*] $a:ident: S, $($rest:tt)*) => {
        foreign!(@ $name $result [$($own)* $a: S,] [$($c)* _: *const u8, _: usize,] [$($handed)* $a.0, $a.1,] $($rest)*);
    };
    (@ $name:ident $result:tt [$($own:tt)*] [$($c:tt)*] [$($handed:tt)*] $a:ident: $t:ty, $($rest:tt)*) => {
        foreign!(@ $name $result [$($own)* $a: $t,] [$($c)* _: $t,] [$($handed)* $a,] $($rest)*);
    };
    (@ $name:ident [$($result:ty)?] [$($own:tt)*] [$($c:tt)*] [$($handed:tt)*] $(,)?) => {
        #[allow(clippy::too_many_arguments)]
        unsafe fn $name($($own)*) $(-> $result)? {
            extern "C" {
                fn $name($($c)*) $(-> $result)?;
            }
            $name($($handed)*)
        }
    };
}
pub(super) use foreign;

foreign! {
    fn bench_checksum(bytes: S) -> u32;
    fn bench_next(tables: S, log: S, validate: u64, kept: u64, r: S);
    fn bench_run(tables: S, log: S, expected: u64, image: S, r: S);
    fn bench_check(tables: S, log: S, r: S);
    fn bench_fill(tables: S, items: S, chunks: S, places: S, data: S, kept: u64, times: u64, r: S);
    fn bench_insert(
        tables: S,
        items: S,
        chunks: S,
        data: S,
        kept: u64,
        kind: u64,
        each: u64,
        stride: u64,
        times: u64,
        r: S,
    );
    fn bench_flush(
        tables: S,
        items: S,
        chunks: S,
        places: S,
        data: S,
        kept: u64,
        out: S,
        times: u64,
        r: S,
    );
    fn bench_write(
        tables: S,
        items: S,
        chunks: S,
        places: S,
        data: S,
        head: S,
        words: S,
        bytes: S,
        kept: u64,
        log: S,
        count: u64,
        r: S,
    );
    fn bench_end(
        tables: S,
        items: S,
        chunks: S,
        places: S,
        data: S,
        head: S,
        words: S,
        bytes: S,
        kept: u64,
        out: S,
        times: u64,
        r: S,
    );
    fn bench_clear(
        tables: S,
        log: S,
        head: S,
        words: S,
        bytes: S,
        kept: u64,
        first: u64,
        count: u64,
        r: S,
    );
    fn bench_shared(
        head: S,
        words: S,
        bytes: S,
        kept: u64,
        what: u64,
        last: usize,
        table: u16,
        keys: S,
        dest: S,
        r: S,
    );
    fn bench_several(
        head: S,
        words: S,
        bytes: S,
        kept: u64,
        last: usize,
        each: usize,
        keys: S,
        places: S,
        r: S,
    );
    fn bench_listed(
        tables: S,
        items: S,
        chunks: S,
        data: S,
        head: S,
        words: S,
        bytes: S,
        kept: u64,
        last: usize,
        table: u16,
        keys: S,
        dest: S,
        r: S,
    );
    fn bench_files(log: S, kept: u64, times: u64, r: S);
}

/// Through which door: the call tests the rules first, or its caller answers for them.
#[derive(Clone, Copy, PartialEq)]
pub enum Door {
    Tested,
    Kept,
}

pub const DOORS: [(Door, &str); 2] = [(Door::Tested, ""), (Door::Kept, ", second door")];

/// The memories of the shared overlays: 256 keys of each kind.
#[derive(Clone)]
pub struct Shared {
    pub head: Vec<u64>,
    pub words: Vec<u64>,
    pub bytes: Vec<u8>,
}

impl Shared {
    pub fn new() -> Shared {
        Shared { head: vec![0; 11], words: vec![0; 3840], bytes: vec![0; 524288] }
    }

    /// So many keys of each kind, in tables 1, 2 and 3.
    pub fn with(keys: usize) -> Shared {
        let mut s = Shared::new();
        for kind in 0..3 {
            s.head[kind] = keys as u64;
            let part = &mut s.words[1280 * kind..1280 * (kind + 1)];
            for p in 0..keys {
                let mark = if kind == 1 { super::tables::VALUE as u64 } else { 1 };
                part[4 * p..4 * p + 4].copy_from_slice(&[kind as u64 + 1, p as u64, 1, mark]);
                part[1024 + p] = p as u64;
            }
        }
        s
    }

    pub fn keys(&self) -> [u64; 3] {
        [self.head[0], self.head[1], self.head[2]]
    }

    pub fn set(&mut self, o: &Shared) {
        self.head.copy_from_slice(&o.head);
        self.words.copy_from_slice(&o.words);
        self.bytes.copy_from_slice(&o.bytes);
    }
}

/// The memories of a list, the keys of lists (`made::places`), and the bytes that are put in.
pub struct Listed {
    pub items: Vec<u64>,
    pub chunks: Vec<u8>,
    pub places: Vec<u64>,
    pub data: Vec<u8>,
}

impl Listed {
    pub fn new() -> Listed {
        Listed::over(256)
    }

    /// Lists of the keys below a number.
    pub fn over(keys: u64) -> Listed {
        let data = (0..1024).map(|i| (i * 7) as u8).collect();
        Listed { items: vec![0; 400], chunks: vec![0; 49152], places: places(keys), data }
    }

    /// Lists of 17 inserts.
    pub fn fill(&mut self, tables: &[u64], door: Door, times: u64) {
        let mut r = [0u64; 4];
        let (items, chunks) = (&open(&mut self.items), &open(&mut self.chunks));
        let (places, data) = (&lent(&self.places), &lent(&self.data));
        unsafe {
            bench_fill(
                &lent(tables),
                items,
                chunks,
                places,
                data,
                door as u64,
                times,
                &open(&mut r),
            )
        };
        assert_eq!(r[0], 13 * times, "keys listed");
    }

    /// Lists of so many inserts of a kind.
    pub fn insert(
        &mut self,
        tables: &[u64],
        door: Door,
        kind: u64,
        each: u64,
        stride: u64,
        times: u64,
    ) {
        let mut r = [0u64; 4];
        let (items, chunks, data) =
            (&open(&mut self.items), &open(&mut self.chunks), &lent(&self.data));
        unsafe {
            bench_insert(
                &lent(tables),
                items,
                chunks,
                data,
                door as u64,
                kind,
                each,
                stride,
                times,
                &open(&mut r),
            )
        };
        assert_eq!(r[0], each * times, "keys listed");
    }

    /// A list of 17 inserts written again and again.
    pub fn flush(&mut self, tables: &[u64], door: Door, out: &mut [u8], times: u64) {
        let mut r = [0u64; 4];
        let (items, chunks) = (&open(&mut self.items), &open(&mut self.chunks));
        let (places, data) = (&lent(&self.places), &lent(&self.data));
        unsafe {
            bench_flush(
                &lent(tables),
                items,
                chunks,
                places,
                data,
                door as u64,
                &open(out),
                times,
                &open(&mut r),
            )
        };
        assert_eq!(r[0], RECORD as u64 * times, "bytes written");
    }

    /// Whole records.
    pub fn write(
        &mut self,
        tables: &[u64],
        s: &mut Shared,
        door: Door,
        log: &mut [u8],
        count: u64,
    ) {
        let mut r = [0u64; 4];
        let (items, chunks) = (&open(&mut self.items), &open(&mut self.chunks));
        let (places, data) = (&lent(&self.places), &lent(&self.data));
        let (head, words, bytes) = (&open(&mut s.head), &open(&mut s.words), &open(&mut s.bytes));
        unsafe {
            bench_write(
                &lent(tables),
                items,
                chunks,
                places,
                data,
                head,
                words,
                bytes,
                door as u64,
                &open(log),
                count,
                &open(&mut r),
            )
        };
        assert_eq!(r[..2], [0, RECORD as u64 * count], "answers and bytes of end_record");
    }

    /// 100 lists of 17 inserts filled, and then ended in turn, so many times.
    pub fn end(&mut self, tables: &[u64], s: &mut Shared, door: Door, out: &mut [u8], times: u64) {
        let mut r = [0u64; 4];
        let mut items = vec![0u64; 100 * 400];
        let (items, chunks) = (&open(&mut items), &open(&mut self.chunks));
        let (places, data) = (&lent(&self.places), &lent(&self.data));
        let (head, words, bytes) = (&open(&mut s.head), &open(&mut s.words), &open(&mut s.bytes));
        unsafe {
            bench_end(
                &lent(tables),
                items,
                chunks,
                places,
                data,
                head,
                words,
                bytes,
                door as u64,
                &open(out),
                times,
                &open(&mut r),
            )
        };
        assert_eq!(r[..2], [0, RECORD as u64 * times], "answers and bytes of end_record");
    }

    /// Lookups of values through a list of 32, keys 223 to 254: how many are found.
    pub fn look(&mut self, tables: &[u64], s: &mut Shared, door: Door, keys: &[u64]) -> u64 {
        let (mut r, mut dest) = ([0u64; 4], [0u8; super::tables::VALUE]);
        let (items, chunks, data) =
            (&open(&mut self.items), &open(&mut self.chunks), &lent(&self.data));
        let (words, bytes) = (&open(&mut s.words[1280..2560]), &lent(&s.bytes[131072..262144]));
        let (head, dest) = (&lent(&s.head), &open(&mut dest));
        unsafe {
            bench_listed(
                &lent(tables),
                items,
                chunks,
                data,
                head,
                words,
                bytes,
                door as u64,
                UNUSED,
                2,
                &lent(keys),
                dest,
                &open(&mut r),
            )
        };
        r[0]
    }
}

#[derive(Clone, Copy)]
pub enum What {
    WithIndex = 0,
    Value = 1,
    ValueRef = 2,
}

/// A word of the last row of a kind, where 255 keys at most are in use.
const UNUSED: usize = 1023;

/// Lookups in the shared overlays: values found, or bytes.
pub fn look(s: &mut Shared, door: Door, what: What, keys: &[u64]) -> u64 {
    let (mut r, mut dest) = ([0u64; 4], [0u8; super::tables::VALUE]);
    let kind = if let What::WithIndex = what { 0 } else { 1 };
    let words = &open(&mut s.words[1280 * kind..1280 * (kind + 1)]);
    let bytes = &lent(&s.bytes[131072 * kind..131072 * (kind + 1)]);
    let (head, dest, table) = (&lent(&s.head), &open(&mut dest), kind as u16 + 1);
    unsafe {
        bench_shared(
            head,
            words,
            bytes,
            door as u64,
            what as u64,
            UNUSED,
            table,
            &lent(keys),
            dest,
            &open(&mut r),
        )
    };
    r[0]
}

/// The same for values, so many words of pairs a call: the bytes found.
pub fn look_several(s: &mut Shared, door: Door, each: usize, pairs: &[u64]) -> u64 {
    let (mut r, mut places) = ([0u64; 4], vec![0u64; each]);
    let words = &open(&mut s.words[1280..2560]);
    let bytes = &lent(&s.bytes[131072..262144]);
    let (head, places) = (&lent(&s.head), &open(&mut places));
    unsafe {
        bench_several(
            head,
            words,
            bytes,
            door as u64,
            UNUSED,
            each,
            &lent(pairs),
            places,
            &open(&mut r),
        )
    };
    r[0]
}

pub fn checksum(bytes: &[u8]) -> u32 {
    unsafe { bench_checksum(&lent(bytes)) }
}

/// Steps to the log's end: how many actions.
pub fn next(tables: &[u64], log: &[u8], validate: bool, door: Door) -> u64 {
    let mut r = [0u64; 4];
    unsafe { bench_next(&lent(tables), &lent(log), validate as u64, door as u64, &open(&mut r)) };
    assert_eq!((r[0], r[2]), (1, log.len() as u64), "answer and position of the last step");
    r[1]
}

pub fn run(tables: &[u64], log: &[u8], records: u64, image: &mut [u8]) {
    let mut r = [0u64; 4];
    unsafe { bench_run(&lent(tables), &lent(log), 1, &open(image), &open(&mut r)) };
    assert_eq!(r[..3], [1, records, log.len() as u64], "answer, records and position of a run");
}

pub fn check(tables: &[u64], log: &[u8], records: u64) {
    let mut r = [0u64; 4];
    unsafe { bench_check(&lent(tables), &lent(log), &open(&mut r)) };
    assert_eq!(
        r[..3],
        [1, records, log.len() as u64],
        "answer, records and position of the checks"
    );
}

pub fn clear(tables: &[u64], log: &[u8], s: &mut Shared, door: Door, first: u64, count: u64) {
    let mut r = [0u64; 4];
    let (head, words, bytes) = (&open(&mut s.head), &open(&mut s.words), &open(&mut s.bytes));
    unsafe {
        bench_clear(
            &lent(tables),
            &lent(log),
            head,
            words,
            bytes,
            door as u64,
            first,
            count,
            &open(&mut r),
        )
    };
    assert_eq!(r[0], 0, "answers of end_read");
}

/// A file's life, so often.
pub fn files(log: &[u8], door: Door, times: u64) {
    let mut r = [0u64; 4];
    unsafe { bench_files(&lent(log), door as u64, times, &open(&mut r)) };
    assert_eq!(r[..2], [times, 1], "answers, and files in the pool");
}

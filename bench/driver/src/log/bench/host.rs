//! What a host of log.rs does.
use super::super::*;
use super::by_hand::put_slots;
use super::made::key;
use super::port::Listed;
use super::tables::{Tables, VALUE};

pub const INDEX_CHUNK: IndexChunk = IndexChunk([7; 512]);
pub const COUNT_CHUNK: RefCountChunk = RefCountChunk([9; 1024]);

pub fn index_table() -> IndexTableId {
    IndexTableId::from_u16(1)
}

pub fn value_table() -> ValueTableId {
    ValueTableId::from_u16(2)
}

pub fn count_table() -> RefCountTableId {
    RefCountTableId::from_u16(3)
}

/// The payload of a chunk of a kind read, and its slots put where the table lies.
fn slots(
    r: &mut LogReader,
    buf: &mut [u8; 1024],
    d: &Tables,
    kind: u64,
    table: u16,
    index: u64,
    image: Option<&mut [u8]>,
) {
    let width = if kind == 0 { 8 } else { 16 };
    r.read(&mut buf[..8]).unwrap();
    let mask = u64::from_le_bytes(buf[..8].try_into().unwrap());
    r.read(&mut buf[..mask.count_ones() as usize * width]).unwrap();
    if let Some(image) = image {
        let (at, _, unit) = d.find(kind, table as u64).unwrap();
        put_slots(image, at + index as usize * unit, mask, width, buf, 0);
    }
}

/// A record behind its opening: each payload read, and applied to an image if there is one. Whether it was read to its end.
pub fn read_record(r: &mut LogReader, d: &Tables, mut image: Option<&mut [u8]>) -> bool {
    let mut buf = [0u8; 1024];
    loop {
        let image = image.as_deref_mut();
        match r.next() {
            Err(_) => return false,
            Ok(LogAction::EndRecord) => return true,
            Ok(LogAction::InsertIndex(a)) => {
                slots(r, &mut buf, d, 0, a.table.as_u16(), a.index, image)
            }
            Ok(LogAction::InsertRefCount(a)) => {
                slots(r, &mut buf, d, 2, a.table.as_u16(), a.index, image)
            }
            Ok(LogAction::InsertValue(a)) => {
                let (at, _, unit) = d.find(1, a.table.as_u16() as u64).unwrap();
                r.read(&mut buf[..unit]).unwrap();
                if let Some(image) = image {
                    let base = at + a.index as usize * unit;
                    image[base..base + unit].copy_from_slice(&buf[..unit]);
                }
            }
            Ok(_) => {}
        }
    }
}

/// The log's bytes as the one file of a fresh folder.
pub fn place(dir: &str, bytes: &[u8]) {
    let _ = std::fs::remove_dir_all(dir);
    std::fs::create_dir_all(dir).unwrap();
    std::fs::write(format!("{dir}/log0"), bytes).unwrap();
}

pub fn open(dir: &str) -> Log {
    Log::open(&Options { path: dir.into(), columns: vec![(); 8], sync_wal: false }).unwrap()
}

/// Each record of the folder's file, validated.
pub fn each_record(dir: &str, records: u64, mut f: impl FnMut(&mut LogReader)) {
    let log = open(dir);
    log.replay_next().unwrap();
    let mut k = 0;
    while let Some(mut r) = log.read_next(true).unwrap() {
        f(&mut r);
        k += 1;
    }
    assert_eq!(k, records);
}

/// A file to append to that keeps nothing.
pub fn nowhere() -> std::io::BufWriter<std::fs::File> {
    std::io::BufWriter::new(std::fs::OpenOptions::new().write(true).open("/dev/null").unwrap())
}

pub fn append_nowhere(log: &Log) {
    *log.appending.write() = Some(Appending { id: 0, size: 0, file: nowhere() });
}

/// The 17 inserts of list n.
pub fn fill(w: &mut LogWriter, n: u64, l: &Listed) {
    for k in 0..4 {
        let i = key(&l.places, n, 4 * n + k);
        w.insert_index(index_table(), i, (n % 64) as u8, INDEX_CHUNK.clone());
        w.insert_index(index_table(), i, ((n + 7) % 64) as u8, INDEX_CHUNK.clone());
    }
    for k in 0..8 {
        w.insert_value(value_table(), key(&l.places, n, 8 * n + k), l.data[..VALUE].to_vec());
    }
    w.insert_ref_count(count_table(), key(&l.places, n, n), (n % 64) as u8, COUNT_CHUNK.clone());
}

/// So many keys of each kind in the shared overlays.
pub fn fill_shared(log: &Log, keys: u64, data: &[u8]) {
    let mut o = log.overlays.write();
    for k in 0..keys {
        o.index[0].map.insert(k, (1, 1, INDEX_CHUNK.clone()));
        o.value[0].map.insert(k, (1, data[..VALUE].to_vec()));
        o.ref_count[0].map.insert(k, (1, 1, COUNT_CHUNK.clone()));
    }
}

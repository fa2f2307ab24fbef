//! The port's speed beside that of parity-db's src/log.rs, the oracle's file byte for byte. What log.rs imports is stood in for by as little
//! as possible, and as cheaply as parity-db does it: a table's number leads to its place by one read. The rows are a child of the module
//! `log`, so they see its private fields.
#![allow(dead_code)]

mod column {
    pub type ColId = u8;
}
mod error {
    #[derive(Debug)]
    pub enum Error {
        Io(std::io::Error),
        Corruption(String),
    }
    pub type Result<T> = std::result::Result<T, Error>;
    macro_rules! try_io {
        ($e:expr) => {{
            $e.map_err(crate::error::Error::Io)?
        }};
    }
    pub(crate) use try_io;
}
mod file {
    pub type MappedBytesGuard<'a> = ::parking_lot::MappedRwLockReadGuard<'a, [u8]>;
}
mod parking_lot {
    pub use ::parking_lot::{RwLock, RwLockWriteGuard};
}
mod options {
    /// The fields that log.rs reads; of `columns` it asks the length alone.
    pub struct Options {
        pub path: std::path::PathBuf,
        pub columns: Vec<()>,
        pub sync_wal: bool,
    }
}
mod table_id;
mod index {
    pub const ENTRY_BYTES: usize = 8;
    #[derive(Clone, Debug)]
    pub struct Chunk(pub [u8; 512]);
    crate::table_id::table_id!(TableId, INDEX, max_log_indicies);
}
mod ref_count {
    pub const ENTRY_BYTES: usize = 16;
    #[derive(Clone, Debug)]
    pub struct Chunk(pub [u8; 1024]);
    crate::table_id::table_id!(RefCountTableId, REF_COUNT, max_log_indicies);
}
mod table {
    crate::table_id::table_id!(TableId, VALUE, max_log_tables);
}
mod log {
    include!(concat!(env!("CARGO_MANIFEST_DIR"), "/../../oracle/src/log.rs"));
    pub mod bench;
}

fn main() {
    let args: Vec<String> = std::env::args().skip(1).collect();
    log::bench::run(&args);
}

//! Stand-in for parity-db's `options`: what `Log::open` asks for.

/// Columns 0 to 7, as document 01 has them.
pub const COLUMNS: usize = 8;

pub struct Options {
    pub path: std::path::PathBuf,
    pub columns: [(); COLUMNS],
    pub sync_wal: bool,
}

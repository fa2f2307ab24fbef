//! Stand-in for parity-db's `index`: 64 entries of 8 bytes a chunk.

crate::table_id::table_id!(TableId, max_log_indicies);

pub const ENTRY_BYTES: usize = 8;

#[derive(Debug)]
pub struct Chunk(pub [u8; 64 * ENTRY_BYTES]);

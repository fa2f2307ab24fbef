//! Stand-in for parity-db's `ref_count`: 64 entries of 16 bytes a chunk.

crate::table_id::table_id!(RefCountTableId, max_log_indicies);

pub const ENTRY_BYTES: usize = 16;

#[derive(Debug)]
pub struct Chunk(pub [u8; 64 * ENTRY_BYTES]);

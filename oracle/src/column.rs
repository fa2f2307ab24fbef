//! Stand-in for parity-db's `column`.

pub type ColId = u8;

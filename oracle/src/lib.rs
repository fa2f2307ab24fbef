//! parity-db's `src/log.rs`, byte for byte, with stand-ins for what it imports; around it a driver
//! that answers the run protocol, a generator of scripts and the comparison with the port.
//! docs/ORACLE.md tells how they belong together.

// Stand-ins for the modules that log.rs imports.
pub mod column;
pub mod error;
pub mod file;
pub mod index;
pub mod options;
pub mod parking_lot;
pub mod ref_count;
pub mod table;
mod table_id;

/// The file as published. It is taken in by `include!` so that the driver can be a child of its
/// module, and so see the private fields, without a changed byte in it.
pub mod log {
    include!("log.rs");
    pub mod driver;
}

pub mod comparison;
pub mod demanded;
mod directory;
pub mod generator;
pub mod listed;
mod names;
pub mod part;
pub mod protocol;
mod random;
pub mod scratch;
mod written;

//! Stand-in for parity-db's `parking_lot`, which chooses between this crate and loom's locks.

pub use ::parking_lot::{RwLock, RwLockWriteGuard};

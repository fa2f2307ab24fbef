//! Nothing but tests: the crate `hongsathep` beside the Rust.

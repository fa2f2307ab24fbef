//! Stand-in for parity-db's `error`: the two errors that log.rs makes.

#[derive(Debug)]
pub enum Error {
    Io(std::io::Error),
    Corruption(String),
}

pub type Result<T> = std::result::Result<T, Error>;

macro_rules! try_io {
    ($e:expr) => {
        $e.map_err(crate::error::Error::Io)?
    };
}
pub(crate) use try_io;

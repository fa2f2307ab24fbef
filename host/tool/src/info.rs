//! `info`: a directory's tables and their places.

use crate::{failure::Failure, inputs, outcome::bytes};
use hongsathep::Kind;
use std::{io::Write, path::Path};

pub fn info(directory: &Path, out: &mut impl Write) -> Result<u8, Failure> {
    let directory = inputs::directory(directory)?;
    let line = "kind      number  column  count  bytes each      from        to";
    if !directory.tables().is_empty() {
        writeln!(out, "{line}")?;
    }
    for table in directory.tables() {
        let kind = match table.kind {
            Kind::Index => "index",
            Kind::Value => "value",
            Kind::RefCount => "refcount",
        };
        let place = directory.range_of(table.kind, table.number).unwrap_or_default();
        writeln!(
            out,
            "{kind:8}  {:6}  {:6}  {:5}  {:10}  {:8}  {:8}",
            table.number,
            table.column,
            table.count,
            table.unit(),
            place.start,
            place.end
        )?;
    }
    writeln!(out, "image: {}", bytes(directory.image_length() as u64))?;
    Ok(0)
}

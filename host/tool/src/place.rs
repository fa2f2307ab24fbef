//! Where a file is written: beside its place, and then in it.

use crate::failure::{Failure, OUTPUT, USAGE, WRITE};
use hongsathep::Replacement;
use std::{fs, io, os::unix::fs::MetadataExt, path::Path};

/// That neither the place nor the one beside it is a file that is read.
pub fn stands_apart<'a>(place: &Path, read: impl IntoIterator<Item = &'a Path>) -> Result<(), Failure> {
    let same = |one: &Path, other: &Path| match (fs::metadata(one), fs::metadata(other)) {
        (Ok(one), Ok(other)) => (one.dev(), one.ino()) == (other.dev(), other.ino()),
        _ => false,
    };
    let beside = Replacement::place_beside(&fs::canonicalize(place).unwrap_or(place.to_path_buf()));
    match read.into_iter().find(|path| same(path, place) || same(path, &beside)) {
        Some(path) => Err(Failure::of(USAGE, path, format!("{} would be written over it", place.display()))),
        None => Ok(()),
    }
}

/// That there is no file yet, nor a link that leads nowhere.
pub fn is_free(place: &Path) -> Result<(), Failure> {
    match fs::symlink_metadata(place) {
        Ok(_) => Err(Failure::of(OUTPUT, place, "it is there already")),
        Err(error) if error.kind() == io::ErrorKind::NotFound => Ok(()),
        Err(error) => Err(Failure::of(OUTPUT, place, error)),
    }
}

/// Holds the place against other runs.
pub fn begin(place: &Path) -> Result<Replacement, Failure> {
    Replacement::begin(place).map_err(|error| Failure::refused(OUTPUT, &error))
}

/// Puts the bytes there; `before` says what stands there if that fails.
pub fn put(target: &mut Replacement, bytes: &[u8], before: &str) -> Result<(), Failure> {
    target.put(bytes).map_err(|error| Failure::refused(WRITE, &error).and(before))?;
    let undone = "the file is written and in its place, but a power cut may undo that";
    target.sync_folder().map_err(|error| Failure::refused(WRITE, &error).and(undone))
}

//! `check`: a log read to its end, and nothing applied.

use crate::{
    arguments::Check,
    failure::{say, Failure},
    inputs,
    outcome::Outcome,
};
use hongsathep::{Directory, Image, Ran};
use std::{
    fs::File,
    io::{self, Read, Write},
    path::Path,
};

pub fn check(asked: &Check, out: &mut impl Write) -> Result<u8, Failure> {
    let directory = inputs::directory(&asked.directory)?;
    let outcome = match &asked.log {
        Some(path) => of_file(path, asked.first, &directory).map_err(|error| Failure::reading(path, &error))?,
        None => {
            let name = Path::new("standard input");
            of_source(io::stdin().lock(), None, asked.first, &directory)
                .map_err(|error| Failure::reading(name, &error))?
        }
    };
    writeln!(out, "{}", outcome.line())?;
    if let Some(fault) = outcome.fault() {
        out.flush()?;
        say(&fault);
    }
    Ok(outcome.status())
}

fn of_file(path: &Path, first: Option<u64>, directory: &Directory) -> io::Result<Outcome> {
    let file = File::open(path)?;
    let there = file.metadata()?;
    let length = there.is_file().then_some(there.len());
    let mut outcome = of_source(&file, length, first, directory)?;
    outcome.name = path.display().to_string();
    // A pipe or a device has no way back.
    outcome.found = length.map_or(Ok(None), |_| inputs::id_at(&file, outcome.ran.position))?;
    Ok(outcome)
}

fn of_source(
    mut source: impl Read,
    length: Option<u64>,
    first: Option<u64>,
    directory: &Directory,
) -> io::Result<Outcome> {
    let mut head = Vec::new();
    source.by_ref().take(9).read_to_end(&mut head)?;
    let first = first.or(inputs::first_id(&head)).unwrap_or_default();
    let progress = inputs::progress(length);
    let ran = ran(directory, progress.wrap_read(head.chain(source)), first)?;
    progress.finish_and_clear();
    Ok(Outcome { name: "standard input".to_string(), ran, first, length, found: None })
}

/// What a run over the bytes reports. It doesn't depend on what the image holds.
fn ran(directory: &Directory, source: impl Read, first: u64) -> io::Result<Ran> {
    Image::new(directory).run_stream(source, first)
}

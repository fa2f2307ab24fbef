//! `salvage`: the whole records of a damaged log, in a file of their own.

use crate::{
    arguments::Salvage,
    failure::{status_of, Failure},
    inputs,
    outcome::{bytes, counted},
    place,
};
use hongsathep::{salvage as salvaged, Directory, Line, LogReader, Salvaged};
use std::{
    io::{self, Write},
    path::Path,
};

const UNTOUCHED: &str = "nothing was written";

pub fn salvage(asked: &Salvage, out: &mut impl Write) -> Result<u8, Failure> {
    let untouched = |failure: Failure| failure.and(UNTOUCHED);
    let directory = inputs::directory(&asked.directory).map_err(untouched)?;
    let log = inputs::log(&asked.log).map_err(untouched)?;
    place::stands_apart(&asked.out, [asked.log.as_path(), &asked.directory]).map_err(untouched)?;
    place::is_free(&asked.out).map_err(untouched)?;
    let mut target = place::begin(&asked.out).map_err(untouched)?;
    place::is_free(&asked.out).map_err(untouched)?;
    let found = salvaged(&directory, &log).map_err(|error| untouched(refused(&asked.log, &error)))?;
    place::put(&mut target, &found.records, UNTOUCHED)?;
    let told = tell(asked, &directory, &log, &found, out).and_then(|()| out.flush());
    told.map_err(|error| Failure::from(error).and("the records are written"))?;
    Ok(0)
}

/// The list, what is lost in words, and the file that has the records.
fn tell(asked: &Salvage, directory: &Directory, log: &[u8], found: &Salvaged, out: &mut impl Write) -> io::Result<()> {
    found.lines.iter().try_for_each(|line| writeln!(out, "{line}"))?;
    tell_lost(&asked.log.display().to_string(), directory, log, &found.lines, out)?;
    let kept = found.lines.iter().filter(|line| line.is_kept()).count();
    let size = bytes(found.records.len() as u64);
    writeln!(out, "{}: written, {}, {size}", asked.out.display(), counted(kept as u64, "record"))
}

fn refused(path: &Path, error: &hongsathep::Error) -> Failure {
    let words = format!("{error}: the list has more than 64 lines; cut the log into parts");
    Failure::of(status_of(error.number().unwrap_or_default()), path, words)
}

/// What is lost, between which records, and why the first of it is no record.
fn tell_lost(name: &str, directory: &Directory, log: &[u8], lines: &[Line], out: &mut impl Write) -> io::Result<()> {
    let lost = || lines.iter().filter(|line| !line.is_kept());
    if lost().next().is_none() {
        return writeln!(out, "{name}: nothing is lost");
    }
    let total: u64 = lost().map(|line| line.length()).sum();
    writeln!(out, "{name}: {total} of {} are lost", bytes(log.len() as u64))?;
    for (place, line) in lines.iter().enumerate().filter(|(_, line)| !line.is_kept()) {
        let (position, length) = (line.position(), bytes(line.length()));
        let before = place.checked_sub(1).and_then(|place| id_of(lines.get(place)?));
        let between = match (before, lines.get(place + 1).and_then(id_of)) {
            (Some(before), Some(behind)) => format!("between the records of ids {before} and {behind}"),
            (Some(before), None) => format!("behind the record of id {before}"),
            (None, Some(behind)) => format!("before the record of id {behind}"),
            (None, None) => "all of it".to_string(),
        };
        let why = why(directory, log, position);
        writeln!(out, "{name}: {length} from byte {position} on, {between}: {why}")?;
    }
    Ok(())
}

fn id_of(line: &Line) -> Option<u64> {
    match line {
        Line::Kept { id, .. } => Some(*id),
        Line::Lost { .. } => None,
    }
}

/// What the reader answers at a position where no record is whole, and where.
fn why(directory: &Directory, log: &[u8], position: u64) -> String {
    let mut reader = LogReader::at(directory, log, usize::try_from(position).unwrap_or(usize::MAX), true);
    loop {
        if let Err(error) = reader.step() {
            return error.to_string();
        }
    }
}

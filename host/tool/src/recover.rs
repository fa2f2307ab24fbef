//! `recover`: log files replayed onto an image.

use crate::{
    arguments::Recover,
    failure::{say, Failure, INPUT},
    inputs,
    logs::Logs,
    outcome::{bytes, Outcome},
    place,
};
use hongsathep::{Directory, Image, LogFile, Replacement};
use indicatif::ProgressBar;
use std::{
    fs::{self, File},
    io::{self, Seek, SeekFrom, Write},
};

pub fn recover(asked: &Recover, out: &mut impl Write) -> Result<u8, Failure> {
    let (ran, became) = recovered(asked)?;
    // What is printed has come true: the image is on its device.
    let lines = ran.lines.iter().chain([&became.line]);
    let printed = lines.into_iter().try_for_each(|line| writeln!(out, "{line}")).and_then(|()| out.flush());
    let written = if became.is_written { "the image is written" } else { "nothing was written" };
    printed.map_err(|error| Failure::from(error).and(written))?;
    if let Some(fault) = ran.fault {
        say(&format!("{fault}; {}", became.words));
    }
    Ok(ran.status)
}

/// What the files came to.
#[derive(Default)]
struct Replayed {
    lines: Vec<String>,
    status: u8,
    count: u64,
    fault: Option<String>,
}

/// What became of the image.
struct Became {
    line: String,
    words: &'static str,
    is_written: bool,
}

fn recovered(asked: &Recover) -> Result<(Replayed, Became), Failure> {
    let untouched = |failure: Failure| failure.and("nothing was written");
    let directory = inputs::directory(&asked.directory).map_err(untouched)?;
    let logs = Logs::at(&asked.logs, asked.from).map_err(untouched)?;
    let read = logs.files.iter().chain(&logs.short).map(LogFile::path).chain([asked.directory.as_path()]);
    place::stands_apart(&asked.image, read).map_err(untouched)?;
    look_at(asked, &directory).map_err(untouched)?;
    let target = if asked.is_dry { None } else { Some(place::begin(&asked.image).map_err(untouched)?) };
    let mut image = image_of(asked, &directory).map_err(untouched)?;
    let ran = replay_all(asked, &logs, &mut image).map_err(untouched)?;
    let image = (asked.is_new || ran.count > 0).then_some(image);
    let became = put(asked, target, image)?;
    Ok((ran, became))
}

/// Whether the image is there as it has to be, or isn't.
fn look_at(asked: &Recover, directory: &Directory) -> Result<(), Failure> {
    let (path, due) = (&asked.image, directory.image_length() as u64);
    if asked.is_new {
        return place::is_free(path).map_err(|failure| failure.and("--new is for an image that isn't there"));
    }
    let there = fs::metadata(path).map_err(|error| match error.kind() {
        io::ErrorKind::NotFound => Failure::of(INPUT, path, "there is no such file (--new begins an image of zeros)"),
        _ => Failure::of(INPUT, path, error),
    })?;
    if !there.is_file() {
        return Err(Failure::of(INPUT, path, "not a regular file"));
    }
    if there.len() != due {
        let words = format!("it has {}, the directory's image {due} (answer 13)", bytes(there.len()));
        return Err(Failure::of(13, path, words));
    }
    Ok(())
}

/// The image as it is once no other run can write it.
fn image_of(asked: &Recover, directory: &Directory) -> Result<Image, Failure> {
    look_at(asked, directory)?;
    if asked.is_new {
        return Ok(Image::new(directory));
    }
    let read = fs::read(&asked.image).map_err(|error| Failure::of(INPUT, &asked.image, error))?;
    Image::from_bytes(directory, read).map_err(|error| Failure::refused(INPUT, &error))
}

/// Replays file after file, up to the first that doesn't end cleanly.
fn replay_all(asked: &Recover, logs: &Logs, image: &mut Image) -> Result<Replayed, Failure> {
    let mut replayed = Replayed::default();
    let short = |file: &LogFile| format!("{}: no records, {} are too few", file.path().display(), bytes(file.length()));
    replayed.lines.extend(logs.short.iter().map(short));
    let progress = inputs::progress(Some(logs.length()));
    let mut expected = asked.first.or(logs.first).unwrap_or_default();
    let mut files = logs.files.iter();
    for file in files.by_ref() {
        let outcome = replay(file, asked.from.unwrap_or_default(), expected, image, &progress)?;
        expected = expected.wrapping_add(outcome.ran.count);
        replayed.lines.push(outcome.line());
        replayed.count += outcome.ran.count;
        replayed.status = outcome.status();
        replayed.fault = outcome.fault();
        if !outcome.is_clean() {
            break;
        }
    }
    replayed.lines.extend(files.map(|file| format!("{}: not replayed", file.path().display())));
    progress.finish_and_clear();
    Ok(replayed)
}

fn replay(
    file: &LogFile,
    from: u64,
    first: u64,
    image: &mut Image,
    progress: &ProgressBar,
) -> Result<Outcome, Failure> {
    let at_fault = |error: io::Error| Failure::reading(file.path(), &error);
    let mut source = File::open(file.path()).map_err(at_fault)?;
    source.seek(SeekFrom::Start(from)).map_err(at_fault)?;
    let counted = |failure: Failure| if from > 0 { failure.and(&format!("counted from byte {from}")) } else { failure };
    let ran = image.run_stream(progress.wrap_read(&source), first).map_err(at_fault);
    let mut ran = ran.map_err(counted)?;
    ran.position += from;
    ran.fault += from;
    let found = inputs::id_at(&source, ran.position).map_err(at_fault)?;
    let name = file.path().display().to_string();
    Ok(Outcome { name, ran, first, length: Some(from + file.length()), found })
}

/// Puts the image in its place, if there is one to put there.
fn put(asked: &Recover, target: Option<Replacement>, image: Option<Image>) -> Result<Became, Failure> {
    let path = asked.image.display();
    let untouched = |line, words| Became { line, words, is_written: false };
    match (target, image) {
        (_, None) => Ok(untouched(format!("{path}: not written, there is nothing new"), "the image is as it was")),
        (None, Some(_)) => Ok(untouched(format!("{path}: not written, a dry run"), "a dry run, nothing was written")),
        (Some(mut target), Some(image)) => {
            place::put(&mut target, image.bytes(), "the image is as it was")?;
            let line = format!("{path}: written, {}", bytes(image.bytes().len() as u64));
            Ok(Became { line, words: "the image has the records before it", is_written: true })
        }
    }
}

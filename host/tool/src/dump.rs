//! `dump`: a log's actions and records, as far as they can be read.

use crate::{
    arguments::Dump,
    failure::{status_of, Failure, INPUT},
    inputs,
    lines::{self, Value},
};
use hongsathep::{checksum, Action, Answer, Directory, Entries, Error, LogReader, Window};
use std::{
    fs::File,
    io::{self, BufWriter, Read, Write},
};

pub fn dump(asked: &Dump, out: &mut impl Write) -> Result<u8, Failure> {
    let directory = inputs::directory(&asked.directory)?;
    let unreadable = |error: io::Error| Failure::of(INPUT, &asked.log, error);
    let file = File::open(&asked.log).map_err(unreadable)?;
    let there = file.metadata().map_err(unreadable)?;
    let skipped = io::copy(&mut (&file).take(asked.from), &mut io::sink()).map_err(unreadable)?;
    let dumper = Dumper { directory, asked };
    let mut out = BufWriter::new(out);
    let end = if skipped == asked.from {
        dumper.walk(file, &mut out)?
    } else {
        End { answer: Answer::BadArgument, start: asked.from, fault: asked.from, records: 0, sums: None }
    };
    dumper.print(&end.fields(there.is_file().then_some(there.len())), &mut out)?;
    out.flush()?;
    Ok(status_of(end.answer.number()))
}

struct Dumper<'a> {
    directory: Directory,
    asked: &'a Dump,
}

impl Dumper<'_> {
    /// Prints record after record.
    fn walk(&self, source: impl Read, out: &mut impl Write) -> Result<End, Failure> {
        let mut window = Window::new(source);
        let (mut goes_on, mut at, mut records) = (true, 0, 0);
        loop {
            let base = self.asked.from + window.position() + at as u64;
            let (lines, read) = self.record(window.bytes().get(at..).unwrap_or_default(), base)?;
            match read {
                Ok(length) => {
                    out.write_all(&lines)?;
                    (at, records) = (at + length, records + 1);
                }
                // The window's end may be all that cuts it.
                Err(end) if goes_on && matches!(end.answer, Answer::EndOfLog | Answer::Cut) => {
                    window.pass(at);
                    at = 0;
                    goes_on = window.fill().map_err(|error| Failure::reading(&self.asked.log, &error))?;
                }
                Err(end) => {
                    out.write_all(&lines)?;
                    return Ok(End { records, ..end });
                }
            }
        }
    }

    /// The lines of a record's actions, as far as they can be read, and its length, if it is whole.
    fn record(&self, bytes: &[u8], base: u64) -> io::Result<(Vec<u8>, Result<usize, End>)> {
        let mut lines = Vec::new();
        let mut reader = LogReader::new(&self.directory, bytes);
        loop {
            let position = reader.offset();
            let action = match reader.step() {
                Ok(action) => action,
                Err(error) => return Ok((lines, Err(End::of(&error, bytes, base)))),
            };
            let mut fields = vec![("at", Value::Number(base + position as u64))];
            fields.extend(fields_of(&action));
            self.print(&fields, &mut lines)?;
            if action == Action::EndRecord {
                let sum = checksum(bytes.get(..=position).unwrap_or_default());
                self.print(&record_fields(reader.record_id(), base, sum), &mut lines)?;
                return Ok((lines, Ok(reader.offset())));
            }
        }
    }

    fn print(&self, fields: &[(&str, Value<'_>)], out: &mut impl Write) -> io::Result<()> {
        lines::print(fields, self.asked.is_json, self.asked.has_bytes, out)
    }
}

type Fields<'a> = Vec<(&'static str, Value<'a>)>;

fn fields_of<'a>(action: &Action<'a>) -> Fields<'a> {
    let named = |name| ("action", Value::Word(name));
    let table = |number: u16| ("table", Value::Number(number.into()));
    let chunk = |name, number, index, entries: Entries<'a>| {
        let place = [named(name), table(number), ("index", Value::Number(index))];
        let held = [("slots", Value::Slots(entries.mask())), ("bytes", Value::Bytes(entries.bytes()))];
        place.into_iter().chain(held).collect()
    };
    match *action {
        Action::BeginRecord { id } => vec![named("begin"), ("id", Value::Number(id))],
        Action::InsertIndex { table, index, entries } => chunk("index", table.0, index, entries),
        Action::InsertRefCount { table, index, entries } => chunk("refcount", table.0, index, entries),
        Action::InsertValue { table: number, index, value } => {
            let place = [named("value"), table(number.0), ("index", Value::Number(index))];
            let held = [("length", Value::Number(value.len() as u64)), ("bytes", Value::Bytes(value))];
            place.into_iter().chain(held).collect()
        }
        Action::DropTable(number) => vec![named("drop-index"), table(number.0)],
        Action::DropRefCountTable(number) => vec![named("drop-refcount"), table(number.0)],
        Action::EndRecord => vec![named("end")],
    }
}

/// A record that was checked: the sum of its bytes is the one that stands behind them.
fn record_fields(id: u64, start: u64, sum: u32) -> Fields<'static> {
    vec![("record", Value::Number(id)), ("from", Value::Number(start)), ("checksum", Value::Sum(sum))]
}

/// Where and why a log ends.
struct End {
    answer: Answer,
    /// Where the record begins that isn't whole.
    start: u64,
    fault: u64,
    records: u64,
    /// Where a checksum differs: the one that stands there, and that of the bytes.
    sums: Option<(u32, u32)>,
}

impl End {
    /// Of a record at the front of some bytes, which begin at a position of the log.
    fn of(error: &Error, bytes: &[u8], start: u64) -> End {
        let answer = error.answer().unwrap_or(Answer::BadState);
        let fault = error.position().unwrap_or_default();
        let sums = usize::try_from(fault).ok().filter(|_| answer == Answer::WrongSum).and_then(|tag| {
            let stored = bytes.get(tag + 1..tag + 5)?.try_into().ok()?;
            Some((u32::from_le_bytes(stored), checksum(bytes.get(..=tag)?)))
        });
        End { answer, start, fault: start + fault, records: 0, sums }
    }

    fn fields(&self, length: Option<u64>) -> Fields<'static> {
        let mut fields = vec![
            ("ends", Value::Number(self.start)),
            ("answer", Value::Number(self.answer.number())),
            ("words", Value::Word(self.answer.words())),
            ("fault", Value::Number(self.fault)),
            ("records", Value::Number(self.records)),
        ];
        fields.extend(length.map(|length| ("length", Value::Number(length))));
        if let Some((stored, due)) = self.sums {
            fields.extend([("stored", Value::Sum(stored)), ("due", Value::Sum(due))]);
        }
        fields
    }
}

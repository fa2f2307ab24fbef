//! The tables' bytes, and records replayed onto them.

use crate::{
    answer::Answer,
    directory::{Directory, IndexTableId, Kind, RefCountTableId, ValueTableId},
    error::Error,
    files::Replacement,
    reader::Record,
    sys,
    window::{Window, WINDOW},
};
use std::{
    fmt, fs,
    io::{self, Read},
    path::Path,
};

/// The tables of a directory in one piece of memory, in directory order without gaps.
///
/// ```
/// use hongsathep::{Answer, ChangeList, Directory, Image, ValueTableId};
/// let directory: Directory = "value 7 0 16 3".parse()?;
/// let mut list = ChangeList::new(&directory, 1);
/// list.insert_value(ValueTableId(7), 5, b"abc")?;
/// let log = list.record();
///
/// let mut image = Image::new(&directory);
/// let ran = image.run(&log, 0, 1);
/// assert_eq!((ran.answer, ran.position, ran.count), (Answer::EndOfLog, log.len() as u64, 1));
/// assert_eq!(image.value(ValueTableId(7), 5), Some(&b"abc"[..]));
///
/// // A record that is cut leaves every byte as it was; the fault is at its end tag, which lacks a byte.
/// let error = image.replay(&log[..log.len() - 1], 0, 1).unwrap_err();
/// assert_eq!((error.number(), error.position()), (Some(2), Some(log.len() as u64 - 5)));
/// # Ok::<(), hongsathep::Error>(())
/// ```
#[derive(Clone)]
pub struct Image {
    directory: Directory,
    bytes: sys::Bytes,
}

/// Where a run stopped.
#[derive(Clone, Copy, Debug, PartialEq, Eq)]
#[non_exhaustive]
pub struct Ran {
    /// The answer that stopped it: 1 where the log ends.
    pub answer: Answer,
    /// Where the record not replayed begins.
    pub position: u64,
    /// How many records were replayed: exactly the whole acceptable ones before it.
    pub count: u64,
    /// The first byte of the action at fault.
    pub fault: u64,
}

impl Image {
    /// An image of zeros.
    pub fn new(directory: &Directory) -> Image {
        Image { directory: directory.clone(), bytes: sys::Bytes::zeros(directory.kept()) }
    }

    /// An image of these bytes; 13 if they aren't as many as the directory's tables have.
    pub fn from_bytes(directory: &Directory, bytes: Vec<u8>) -> Result<Image, Error> {
        Ok(Image { directory: directory.clone(), bytes: sys::Bytes::new(directory.kept(), bytes)? })
    }

    /// The image in a file, or one of zeros if there is no such file.
    pub fn load(directory: &Directory, path: impl AsRef<Path>) -> Result<Image, Error> {
        let path = path.as_ref();
        match fs::read(path) {
            Ok(bytes) => Image::from_bytes(directory, bytes).map_err(|error| error.in_file(path)),
            Err(error) if error.kind() == io::ErrorKind::NotFound => Ok(Image::new(directory)),
            Err(error) => Err(Error::file("read", path)(error)),
        }
    }

    /// Writes the image to a file: whole, to a new one beside it, brought to its device, then renamed. A failure on the
    /// way leaves the old file. ([`Replacement`] is what it does.)
    pub fn save(&self, path: impl AsRef<Path>) -> Result<(), Error> {
        Replacement::begin(path)?.finish(self.bytes())
    }

    /// Its directory.
    pub fn directory(&self) -> &Directory {
        &self.directory
    }

    /// All bytes.
    pub fn bytes(&self) -> &[u8] {
        self.bytes.bytes()
    }

    /// All bytes, to be changed: what they are is the host's affair.
    pub fn bytes_mut(&mut self) -> &mut [u8] {
        self.bytes.bytes_mut()
    }

    /// All bytes, taken out.
    pub fn into_bytes(self) -> Vec<u8> {
        self.bytes.into_bytes()
    }

    /// A chunk of an index table; none if there is no such table or chunk.
    pub fn index(&self, table: IndexTableId, index: u64) -> Option<&[u8]> {
        self.unit(Kind::Index, table.0, index)
    }

    /// A value; none if there is no such table or value.
    pub fn value(&self, table: ValueTableId, index: u64) -> Option<&[u8]> {
        self.unit(Kind::Value, table.0, index)
    }

    /// A chunk of a reference count table; none if there is no such table or chunk.
    pub fn ref_count(&self, table: RefCountTableId, index: u64) -> Option<&[u8]> {
        self.unit(Kind::RefCount, table.0, index)
    }

    fn unit(&self, kind: Kind, number: u16, index: u64) -> Option<&[u8]> {
        let unit = self.directory.table(kind, number)?.unit();
        let table = self.bytes().get(self.directory.range_of(kind, number)?)?;
        table.chunks_exact(unit).nth(usize::try_from(index).ok()?)
    }

    /// Replays the record at a position, which must have the expected id: checked to its end, then applied. The position
    /// behind it. A refusal changes no byte.
    pub fn replay(&mut self, log: &[u8], position: usize, expected: u64) -> Result<usize, Error> {
        self.bytes.replay(log, position, expected).map_err(|(answer, fault)| Error::refused_at(answer, fault))
    }

    /// Replays a record that was handed out, whatever its id.
    pub fn replay_record(&mut self, record: &Record<'_>) -> Result<(), Error> {
        self.replay(record.bytes(), 0, record.id()).map(|_| ())
    }

    /// Replays from a position on, the expected id rising by 1, up to the first refusal, which is 1 where the log ends.
    pub fn run(&mut self, log: &[u8], position: usize, expected: u64) -> Ran {
        let ((answer, fault), end, count) = self.bytes.run(log, position, expected);
        Ran { answer, position: end as u64, count, fault: fault as u64 }
    }

    /// The same over a log of any length, of which a window at a time is in memory: a megabyte, or the longest record
    /// twice. A record of more than [`LONGEST_TAKEN`](crate::LONGEST_TAKEN) bytes isn't taken in, and is an error of the
    /// kind `InvalidData`.
    ///
    /// ```
    /// # use hongsathep::{Answer, ChangeList, Directory, Image};
    /// # let directory: Directory = "value 7 0 16 3".parse()?;
    /// let mut log = ChangeList::new(&directory, 8).record();
    /// log.extend(ChangeList::new(&directory, 9).record());
    /// let ran = Image::new(&directory).run_stream(&log[..], 8).expect("a slice can be read");
    /// assert_eq!((ran.answer, ran.position, ran.count), (Answer::EndOfLog, 28, 2));
    /// # Ok::<(), hongsathep::Error>(())
    /// ```
    pub fn run_stream(&mut self, source: impl Read, expected: u64) -> io::Result<Ran> {
        self.run_windows(source, expected, WINDOW, |_, _| {})
    }

    /// Shows each window and how many records of it were replayed.
    pub(crate) fn run_windows(
        &mut self,
        source: impl Read,
        expected: u64,
        length: usize,
        mut shown: impl FnMut(&[u8], u64),
    ) -> io::Result<Ran> {
        let mut window = Window::of_length(source, length);
        let mut count = 0u64;
        loop {
            let goes_on = window.fill()?;
            let ran = self.run(window.bytes(), 0, expected.wrapping_add(count));
            shown(window.bytes(), ran.count);
            count += ran.count;
            let fault = window.position() + ran.fault;
            window.pass(ran.position as usize);
            // A record looks at nothing behind itself: only 1 and 2 can be the window's doing.
            if !goes_on || !matches!(ran.answer, Answer::EndOfLog | Answer::Cut) {
                return Ok(Ran { answer: ran.answer, position: window.position(), count, fault });
            }
        }
    }
}

impl fmt::Debug for Image {
    fn fmt(&self, f: &mut fmt::Formatter<'_>) -> fmt::Result {
        f.debug_struct("Image").field("directory", &self.directory).finish_non_exhaustive()
    }
}

#[cfg(test)]
mod tests {
    use super::*;
    use crate::list::ChangeList;

    fn log(directory: &Directory) -> Vec<u8> {
        let record = |id: u64| {
            let mut list = ChangeList::new(directory, id);
            (0..id % 4).for_each(|index| list.insert_value(ValueTableId(7), index, &[id as u8; 40]).unwrap());
            list.record()
        };
        (1..9).flat_map(record).collect()
    }

    /// Whatever is cut or damaged, and however short the window.
    #[test]
    fn a_run_over_windows_is_a_run() {
        let directory: Directory = "value 7 0 4 40".parse().unwrap();
        let log = log(&directory);
        let runs_alike = |bytes: &[u8], length: usize| {
            let (mut at_once, mut streamed) = (Image::new(&directory), Image::new(&directory));
            let mut seen = 0;
            let ran = streamed.run_windows(bytes, 1, length, |_, count| seen += count).unwrap();
            assert_eq!(ran, at_once.run(bytes, 0, 1));
            assert_eq!(seen, ran.count);
            assert!(at_once.bytes() == streamed.bytes());
        };
        for length in [1, 10, 100, 1000] {
            (0..=log.len()).for_each(|cut| runs_alike(&log[..cut], length));
            for place in 0..log.len() {
                let mut damaged = log.clone();
                damaged[place] ^= 4;
                runs_alike(&damaged, length);
            }
        }
    }
}

//! A log of any length, a part of it in memory.

use std::{
    fmt,
    io::{self, Read},
};

/// How many bytes of a long log are taken in at once.
pub(crate) const WINDOW: usize = 1 << 20;

/// The longest record that is taken in from a log of any length: a record that sets every chunk of the largest image
/// once has 68,354,062 bytes.
pub const LONGEST_TAKEN: usize = 1 << 27;

/// Some bytes of a log, so many behind its front. Whoever goes through it takes bytes in, passes the whole records, and
/// takes more in where the rest is none: answers 1 and 2 may be the window's doing, no others are.
///
/// ```
/// use hongsathep::{ChangeList, Directory, Records, Window};
/// let directory: Directory = "value 7 0 16 3".parse()?;
/// let log: Vec<u8> = (1..=9).flat_map(|id| ChangeList::new(&directory, id).record()).collect();
/// let mut window = Window::new(&log[..]);
/// let mut count = 0;
/// while window.fill().expect("a slice can be read") {
///     let mut records = Records::new(&directory, window.bytes());
///     count += records.by_ref().map_while(Result::ok).count();
///     let passed = records.offset();
///     window.pass(passed);
/// }
/// assert_eq!((count, window.position()), (9, 126));
/// # Ok::<(), hongsathep::Error>(())
/// ```
pub struct Window<R> {
    source: R,
    length: usize,
    bytes: Vec<u8>,
    passed: u64,
}

impl<R: Read> Window<R> {
    /// An empty one at a log's front.
    pub fn new(source: R) -> Window<R> {
        Window::of_length(source, WINDOW)
    }

    pub(crate) fn of_length(source: R, length: usize) -> Window<R> {
        Window { source, length, bytes: Vec::new(), passed: 0 }
    }

    /// The bytes taken in and not passed.
    pub fn bytes(&self) -> &[u8] {
        &self.bytes
    }

    /// Where they begin in the log.
    pub fn position(&self) -> u64 {
        self.passed
    }

    /// Takes in a megabyte more, or as many bytes as there are, so that a long record isn't gone through over and over.
    /// Whether there were any. Behind [`LONGEST_TAKEN`] bytes it fails, with the kind `InvalidData`.
    pub fn fill(&mut self) -> io::Result<bool> {
        if self.bytes.len() >= LONGEST_TAKEN {
            let words = format!("the record at byte {} has more than {LONGEST_TAKEN} bytes", self.passed);
            return Err(io::Error::new(io::ErrorKind::InvalidData, words));
        }
        let more = self.length.max(self.bytes.len()) as u64;
        Ok((&mut self.source).take(more).read_to_end(&mut self.bytes)? > 0)
    }

    /// Passes bytes at the front, which are let go.
    pub fn pass(&mut self, length: usize) {
        let length = length.min(self.bytes.len());
        self.bytes.drain(..length);
        self.passed += length as u64;
    }
}

impl<R> fmt::Debug for Window<R> {
    fn fmt(&self, f: &mut fmt::Formatter<'_>) -> fmt::Result {
        f.debug_struct("Window").field("position", &self.passed).finish_non_exhaustive()
    }
}

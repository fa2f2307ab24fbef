//! Which tables there are.

use crate::{
    error::{Error, Row},
    sys,
};
use std::{fmt, str::FromStr, sync::Arc};

/// A kind of tables. Kinds are separate: two tables of different kinds may share a number.
#[derive(Clone, Copy, Debug, PartialEq, Eq, PartialOrd, Ord, Hash)]
pub enum Kind {
    /// Chunks of 64 entries of 8 bytes.
    Index = 0,
    /// Values of one length.
    Value = 1,
    /// Chunks of 64 entries of 16 bytes.
    RefCount = 2,
}

impl Kind {
    /// Its name in a directory's text.
    fn name(self) -> &'static str {
        match self {
            Kind::Index => "index",
            Kind::Value => "value",
            Kind::RefCount => "refcount",
        }
    }
}

/// An index table's number.
#[derive(Clone, Copy, Debug, PartialEq, Eq, PartialOrd, Ord, Hash)]
pub struct IndexTableId(pub u16);

/// A value table's number.
#[derive(Clone, Copy, Debug, PartialEq, Eq, PartialOrd, Ord, Hash)]
pub struct ValueTableId(pub u16);

/// A reference count table's number.
#[derive(Clone, Copy, Debug, PartialEq, Eq, PartialOrd, Ord, Hash)]
pub struct RefCountTableId(pub u16);

/// A table's description.
#[derive(Clone, Copy, Debug, PartialEq, Eq, Hash)]
#[non_exhaustive]
pub struct Table {
    /// Its kind.
    pub kind: Kind,
    /// Its number.
    pub number: u16,
    /// Its column, 0 to 7.
    pub column: u8,
    /// How many chunks or values it has, 1 to 4,096.
    pub count: u16,
    /// A value's length, 1 to 512; 0 for the other kinds.
    pub length: u16,
}

impl Table {
    /// How many bytes a chunk or value takes.
    pub fn unit(&self) -> usize {
        match self.kind {
            Kind::Index => 512,
            Kind::Value => self.length.into(),
            Kind::RefCount => 1024,
        }
    }

    fn words(&self) -> [u64; sys::raw::TABLE_WORDS] {
        let Table { kind, number, column, count, length } = *self;
        [kind as u64, number.into(), column.into(), count.into(), length.into(), 0]
    }

    /// What it would break behind other tables.
    fn fault_behind(&self, others: &[Table]) -> Option<DirectoryFault> {
        let lengths = if self.kind == Kind::Value { 1..=512 } else { 0..=0 };
        let is_same = |other: &Table| (other.kind, other.number) == (self.kind, self.number);
        if others.len() >= sys::raw::MOST_TABLES {
            Some(DirectoryFault::TooManyTables)
        } else if self.column > 7 {
            Some(DirectoryFault::Column)
        } else if !(1..=4096).contains(&self.count) {
            Some(DirectoryFault::Count)
        } else if !lengths.contains(&self.length) {
            Some(DirectoryFault::Length)
        } else if others.iter().any(is_same) {
            Some(DirectoryFault::NumberTaken)
        } else {
            None
        }
    }
}

/// A line of a directory's text, but for its comment.
impl fmt::Display for Table {
    fn fmt(&self, f: &mut fmt::Formatter<'_>) -> fmt::Result {
        write!(f, "{} {} {} {}", self.kind.name(), self.number, self.column, self.count)?;
        match self.kind {
            Kind::Value => write!(f, " {}", self.length),
            Kind::Index | Kind::RefCount => Ok(()),
        }
    }
}

/// What a directory breaks, or its text.
#[derive(Clone, Copy, Debug, PartialEq, Eq, Hash)]
#[non_exhaustive]
pub enum DirectoryFault {
    /// More than 16 tables.
    TooManyTables,
    /// A column above 7.
    Column,
    /// A count of 0 or above 4,096.
    Count,
    /// A value's length of 0 or above 512.
    Length,
    /// A second table of a kind and number.
    NumberTaken,
    /// A line that begins with another word than `index`, `value` or `refcount`.
    UnknownKind,
    /// A line with too few numbers.
    NumberMissing,
    /// A word that is no decimal number.
    NotDecimal,
    /// A number that doesn't fit its field.
    TooLarge,
    /// A line with too many words.
    MoreWords,
}

impl fmt::Display for DirectoryFault {
    fn fmt(&self, f: &mut fmt::Formatter<'_>) -> fmt::Result {
        f.write_str(match self {
            DirectoryFault::TooManyTables => "more than 16 tables",
            DirectoryFault::Column => "the column isn't 0 to 7",
            DirectoryFault::Count => "the count isn't 1 to 4096",
            DirectoryFault::Length => "the value's length isn't 1 to 512",
            DirectoryFault::NumberTaken => "a second table of this kind and number",
            DirectoryFault::UnknownKind => "the kind isn't index, value or refcount",
            DirectoryFault::NumberMissing => "a number is missing",
            DirectoryFault::NotDecimal => "a word isn't a decimal number",
            DirectoryFault::TooLarge => "a number is too large",
            DirectoryFault::MoreWords => "there are too many words",
        })
    }
}

/// Which tables there are, and where they lie in the image: up to 16, one behind the other.
///
/// It keeps its rules: nothing makes one that breaks them. A clone is cheap.
///
/// ```
/// use hongsathep::{Directory, Kind};
/// let built = Directory::builder().index(3, 0, 64).value(7, 1, 128, 20).ref_count(2, 0, 8).build()?;
/// assert_eq!(built.image_length(), 64 * 512 + 128 * 20 + 8 * 1024);
/// assert_eq!(built.range_of(Kind::Value, 7), Some(32_768..35_328));
///
/// let text = "index 3 0 64\nvalue 7 1 128 20\nrefcount 2 0 8   # 8 chunks of 1,024 bytes";
/// assert_eq!(text.parse::<Directory>()?, built);
/// assert_eq!(built.to_string().parse::<Directory>()?, built);
///
/// let error = Directory::builder().index(3, 0, 64).index(3, 1, 64).build().unwrap_err();
/// assert_eq!(error.number(), Some(13));
/// assert_eq!(error.directory_fault(), Some(hongsathep::DirectoryFault::NumberTaken));
/// # Ok::<(), hongsathep::Error>(())
/// ```
#[derive(Clone)]
pub struct Directory {
    tables: sys::Tables,
    rows: Arc<[Table]>,
}

impl Directory {
    /// To describe one table after the other.
    pub fn builder() -> DirectoryBuilder {
        DirectoryBuilder { tables: Vec::new() }
    }

    fn of(tables: Vec<Table>) -> Result<Directory, Error> {
        let words: Vec<u64> = tables.iter().flat_map(Table::words).collect();
        Ok(Directory { tables: sys::Tables::new(&words)?, rows: tables.into() })
    }

    /// The tables, in the order in which they lie in the image.
    pub fn tables(&self) -> &[Table] {
        &self.rows
    }

    /// How many bytes the image has.
    pub fn image_length(&self) -> usize {
        self.tables.image_length()
    }

    /// The table of a kind and number.
    pub fn table(&self, kind: Kind, number: u16) -> Option<&Table> {
        self.rows.get(self.row(kind, number)?)
    }

    /// Where the table of a kind and number lies in the image.
    pub fn range_of(&self, kind: Kind, number: u16) -> Option<std::ops::Range<usize>> {
        let row = self.row(kind, number)?;
        Some(self.tables.start(row)..self.tables.start(row + 1))
    }

    fn row(&self, kind: Kind, number: u16) -> Option<usize> {
        self.rows.iter().position(|table| (table.kind, table.number) == (kind, number))
    }

    /// The words of the directory, as include/hongsathep.h has them.
    pub fn words(&self) -> &[u64] {
        self.tables.words()
    }

    pub(crate) fn kept(&self) -> &sys::Tables {
        &self.tables
    }
}

impl PartialEq for Directory {
    fn eq(&self, other: &Directory) -> bool {
        self.tables == other.tables
    }
}

impl Eq for Directory {}

impl fmt::Debug for Directory {
    fn fmt(&self, f: &mut fmt::Formatter<'_>) -> fmt::Result {
        f.debug_list().entries(self.rows.iter()).finish()
    }
}

/// The text form, a line a table.
impl fmt::Display for Directory {
    fn fmt(&self, f: &mut fmt::Formatter<'_>) -> fmt::Result {
        self.rows.iter().try_for_each(|table| writeln!(f, "{table}"))
    }
}

/// The text form of the programs: a line a table, words separated by blanks: the kind, then in decimal the number, the
/// column, the count of chunks or values, and for a value table the value's length. `#` starts a comment; empty lines
/// are skipped. The first fault is told with its line.
impl FromStr for Directory {
    type Err = Error;

    fn from_str(text: &str) -> Result<Directory, Error> {
        let mut tables = Vec::new();
        for (line, text) in text.split('\n').enumerate() {
            let at_fault = |fault| Error::directory(fault, Row::Line(line + 1));
            if let Some(table) = table_in(text).map_err(at_fault)? {
                match table.fault_behind(&tables) {
                    None => tables.push(table),
                    Some(fault) => return Err(at_fault(fault)),
                }
            }
        }
        Directory::of(tables)
    }
}

/// The table that a line describes, if it describes any.
fn table_in(line: &str) -> Result<Option<Table>, DirectoryFault> {
    let code = line.split('#').next().unwrap_or(line);
    let mut words = code.split([' ', '\t', '\r']).filter(|word| !word.is_empty());
    let kind = match words.next() {
        None => return Ok(None),
        Some("index") => Kind::Index,
        Some("value") => Kind::Value,
        Some("refcount") => Kind::RefCount,
        Some(_) => return Err(DirectoryFault::UnknownKind),
    };
    let number = number_in(words.next())?;
    let column = number_in(words.next())?;
    let count = number_in(words.next())?;
    let length = if kind == Kind::Value { number_in(words.next())? } else { 0 };
    match words.next() {
        None => Ok(Some(Table { kind, number, column, count, length })),
        Some(_) => Err(DirectoryFault::MoreWords),
    }
}

fn number_in<T: TryFrom<u64>>(word: Option<&str>) -> Result<T, DirectoryFault> {
    let word = word.ok_or(DirectoryFault::NumberMissing)?;
    if !word.bytes().all(|byte| byte.is_ascii_digit()) {
        return Err(DirectoryFault::NotDecimal);
    }
    let number: u64 = word.parse().map_err(|_| DirectoryFault::TooLarge)?;
    T::try_from(number).map_err(|_| DirectoryFault::TooLarge)
}

/// A directory that is being described.
#[derive(Clone, Debug)]
pub struct DirectoryBuilder {
    tables: Vec<Table>,
}

impl DirectoryBuilder {
    fn with(mut self, kind: Kind, number: u16, column: u8, count: u16, length: u16) -> DirectoryBuilder {
        self.tables.push(Table { kind, number, column, count, length });
        self
    }

    /// An index table: its number, its column, how many chunks.
    pub fn index(self, number: u16, column: u8, count: u16) -> DirectoryBuilder {
        self.with(Kind::Index, number, column, count, 0)
    }

    /// A value table: its number, its column, how many values, their length.
    pub fn value(self, number: u16, column: u8, count: u16, length: u16) -> DirectoryBuilder {
        self.with(Kind::Value, number, column, count, length)
    }

    /// A reference count table: its number, its column, how many chunks.
    pub fn ref_count(self, number: u16, column: u8, count: u16) -> DirectoryBuilder {
        self.with(Kind::RefCount, number, column, count, 0)
    }

    /// The directory; 13 with the rule that it breaks.
    pub fn build(self) -> Result<Directory, Error> {
        for (row, table) in self.tables.iter().enumerate() {
            if let Some(fault) = self.tables.get(..row).and_then(|others| table.fault_behind(others)) {
                return Err(Error::directory(fault, Row::Table(row + 1)));
            }
        }
        Directory::of(self.tables)
    }
}

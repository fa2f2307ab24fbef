//! The differences that docs/DIFFERENCES.md lists, told by rule from what was handed in.

use crate::{
    directory::{Directory, Kind},
    names::Found,
    protocol::{number, tag, Fields, RUST_FAILS},
};

#[derive(Debug, Clone, Copy, PartialEq, Eq)]
pub enum Listed {
    BeginInside,
    BeginInsideCut,
    UnknownTable,
    IndexTooLarge,
    NameTaken,
    FrontMoved,
}

impl Listed {
    pub const ALL: [Listed; 6] = [
        Listed::BeginInside,
        Listed::BeginInsideCut,
        Listed::UnknownTable,
        Listed::IndexTooLarge,
        Listed::NameTaken,
        Listed::FrontMoved,
    ];

    pub fn name(self) -> &'static str {
        match self {
            Listed::BeginInside => "begin inside a record",
            Listed::BeginInsideCut => "begin inside a record, its id cut",
            Listed::UnknownTable => "unknown table",
            Listed::IndexTooLarge => "index not below the count",
            Listed::NameTaken => "a name with a plus sign or leading zero",
            Listed::FrontMoved => "front of the read queue moved by a refused opening",
        }
    }

    /// Whether the Rust's answer is one that it gives where this difference applies.
    pub fn fits_the_rust(self, answer: &[u8]) -> bool {
        let allowed: &[u8] = match self {
            Listed::BeginInside => &[number::DONE],
            Listed::BeginInsideCut => &[number::ENDS_INSIDE],
            // It passes over the fault, and may then come to the end of the bytes.
            Listed::UnknownTable | Listed::IndexTooLarge => &[number::DONE, number::ENDS_INSIDE],
            // It opens the file of the plain name, or fails as there is none.
            Listed::NameTaken => &[number::DONE, RUST_FAILS],
            // The same number as 01's: the state behind it is another.
            Listed::FrontMoved => {
                &[number::UNKNOWN_TAG, number::BEGIN_MISPLACED, number::CHECKSUM_DIFFERS]
            }
        };
        allowed.contains(&answer[0])
    }

    /// What an action inside a record meets, told from the bytes from its tag on, and the number
    /// that document 01 demands then.
    pub fn inside(directory: &Directory, rest: &[u8]) -> Option<(Listed, u8)> {
        if rest.first() == Some(&tag::BEGIN) {
            let cut = rest.len() < TAG_AND_ID;
            let listed = if cut { Listed::BeginInsideCut } else { Listed::BeginInside };
            return Some((listed, number::BEGIN_MISPLACED));
        }
        let key = Key::behind_the_tag(rest)?;
        match directory.find(key.kind, key.number) {
            None => Some((Listed::UnknownTable, number::UNKNOWN_TABLE)),
            Some(table) => {
                let beyond = key.index.is_some_and(|index| index >= table.count.into());
                beyond.then_some((Listed::IndexTooLarge, number::INDEX_TOO_LARGE))
            }
        }
    }

    /// What OPEN meets: a name that the Rust takes and 01 doesn't.
    pub fn in_names(found: &[Found]) -> Option<Listed> {
        let differs = |file: &Found| file.taken() != file.taken_by_the_rust();
        found.iter().any(differs).then_some(Listed::NameTaken)
    }

    /// What `read_next` meets at the front of the read queue: an opening that is refused, and isn't
    /// the end of the log.
    pub fn at_the_front(log: &[u8]) -> Option<Listed> {
        let (&tag, behind) = log.split_first()?;
        let needed = match tag {
            tag::BEGIN => return None,
            tag::INDEX | tag::VALUE | tag::REF_COUNT => 10,
            tag::END => 4,
            tag::DROP_INDEX | tag::DROP_REF_COUNT => 2,
            _ => 0,
        };
        (behind.len() >= needed).then_some(Listed::FrontMoved)
    }
}

const TAG_AND_ID: usize = 9;

struct Key {
    kind: Kind,
    number: u16,
    /// A drop has none.
    index: Option<u64>,
}

impl Key {
    /// None if the tag has no table, or the 10 bytes behind it (2 for a drop) aren't all there.
    fn behind_the_tag(rest: &[u8]) -> Option<Key> {
        let (&tag, behind) = rest.split_first()?;
        let (kind, is_drop) = match tag {
            tag::INDEX => (Kind::Index, false),
            tag::VALUE => (Kind::Value, false),
            tag::REF_COUNT => (Kind::RefCount, false),
            tag::DROP_INDEX => (Kind::Index, true),
            tag::DROP_REF_COUNT => (Kind::RefCount, true),
            _ => return None,
        };
        if behind.len() < if is_drop { 2 } else { 10 } {
            return None;
        }
        let mut fields = Fields(behind);
        Some(Key { kind, number: fields.u16(), index: (!is_drop).then(|| fields.u64()) })
    }
}

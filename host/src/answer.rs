//! The numbered answers.

use std::fmt;

/// Why a call refused: document 01's numbered answers. 0, done, is `Ok`.
///
/// ```
/// use hongsathep::Answer;
/// assert_eq!(Answer::WrongSum.number(), 8);
/// assert_eq!(Answer::WrongSum.words(), "checksum differs");
/// assert_eq!(Answer::of(8), Some(Answer::WrongSum));
/// assert_eq!(Answer::of(0), None);
/// ```
#[derive(Clone, Copy, Debug, PartialEq, Eq, Hash)]
#[non_exhaustive]
pub enum Answer {
    /// 1: end of log at this position.
    EndOfLog,
    /// 2: the bytes end inside a begun record.
    Cut,
    /// 3: tag 0 or 8 to 255.
    UnknownTag,
    /// 4: first action isn't begin, or begin comes inside a record.
    OutOfPlace,
    /// 5: id isn't the expected one.
    WrongId,
    /// 6: table not in the directory under that kind.
    NoTable,
    /// 7: index not below the table's count.
    NoIndex,
    /// 8: checksum differs.
    WrongSum,
    /// 9: no room in a list, overlay or the file set.
    NoRoom,
    /// 10: output too short.
    ShortOutput,
    /// 11: list's id plus 1 isn't the next id.
    NotNext,
    /// 12: record ids, file numbers or a file's size used up.
    UsedUp,
    /// 13: a state handed in breaks a rule, a listed key doesn't fit the directory, or image length differs.
    BadState,
    /// 14: slot above 63, chunk or value of the wrong length, position beyond the log's end.
    BadArgument,
    /// A number without a name here: the library linked is newer than this crate.
    Other(u64),
}

/// The answers from 1 on, each with its words.
const ANSWERS: [(Answer, &str); 14] = [
    (Answer::EndOfLog, "end of log"),
    (Answer::Cut, "the bytes end inside a begun record"),
    (Answer::UnknownTag, "unknown tag"),
    (Answer::OutOfPlace, "an action out of place"),
    (Answer::WrongId, "another id than the expected one"),
    (Answer::NoTable, "no such table in the directory"),
    (Answer::NoIndex, "index not below the table's count"),
    (Answer::WrongSum, "checksum differs"),
    (Answer::NoRoom, "no room in a list, overlay or the file set"),
    (Answer::ShortOutput, "output too short"),
    (Answer::NotNext, "the list's id plus 1 isn't the next id"),
    (Answer::UsedUp, "record ids, file numbers or a file's size used up"),
    (Answer::BadState, "a state handed in breaks a rule"),
    (Answer::BadArgument, "a slot, a length or a position that can't be"),
];

impl Answer {
    /// The answer of a number; none for 0, done.
    pub fn of(number: u64) -> Option<Answer> {
        let place = usize::try_from(number).ok()?.checked_sub(1)?;
        Some(ANSWERS.get(place).map_or(Answer::Other(number), |(answer, _)| *answer))
    }

    fn place(self) -> Option<usize> {
        ANSWERS.iter().position(|(answer, _)| *answer == self)
    }

    /// Document 01's number.
    pub fn number(self) -> u64 {
        match (self, self.place()) {
            (Answer::Other(number), _) => number,
            (_, place) => place.map_or(0, |place| place as u64 + 1),
        }
    }

    /// What it says.
    pub fn words(self) -> &'static str {
        self.place().and_then(|place| ANSWERS.get(place)).map_or("an answer without a name", |(_, words)| *words)
    }
}

impl fmt::Display for Answer {
    fn fmt(&self, f: &mut fmt::Formatter<'_>) -> fmt::Result {
        write!(f, "answer {} ({})", self.number(), self.words())
    }
}

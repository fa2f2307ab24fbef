//! 02, "One": a log checked in pieces. The checker keeps the part of a record that isn't whole yet; the
//! records before it have been told and are gone.

use super::{
    checksum, directory, directory::Table, number, put, replay::opening, Fault, Model, Take,
};

pub struct Checker {
    directory: Vec<Table>,
    expected: u64,
    /// The bytes from the start of the record that isn't whole yet on.
    rest: Vec<u8>,
    /// Where it starts.
    start: u64,
    count: u64,
    taken: u64,
    closed: bool,
    /// The answer, once it is decided, and its place.
    decided: Option<(u8, u64)>,
}

impl Checker {
    pub fn new(directory: Vec<Table>, expected: u64) -> Checker {
        Checker {
            directory,
            expected,
            rest: Vec::new(),
            start: 0,
            count: 0,
            taken: 0,
            closed: false,
            decided: None,
        }
    }
}

impl Model {
    /// The commands 36 to 38.
    pub fn answer_of_checker(&mut self, command: u8, take: &mut Take) -> Vec<u8> {
        if command == 0x36 {
            self.checker = Checker::new(self.directory.clone(), take.number(8));
        }
        let directory = match self.has(Fault::DirectoryOfTheHost) {
            true => &self.directory,
            false => &self.checker.directory,
        };
        let broken = !directory::keeps_the_rules(directory);
        let closed = self.checker.closed && !self.has(Fault::TakesBehindTheClose);
        let refused = if broken { Some(13) } else { closed.then_some(14) };
        if let Some(answer) = refused {
            self.tell_fault(answer, self.checker.taken);
            let mut told = vec![answer];
            if command == 0x38 {
                put(&mut told, self.checker.taken, 8);
                put(&mut told, 0, 8);
            }
            return told;
        }
        match command {
            0x36 => {
                self.tell_fault(0, 0);
                vec![0]
            }
            0x37 => self.piece(take.blob()),
            _ => self.close(),
        }
    }

    fn piece(&mut self, piece: &[u8]) -> Vec<u8> {
        if self.has(Fault::EachPieceByItself) && self.checker.decided.is_none() {
            self.checker.start += self.checker.rest.len() as u64;
            self.checker.rest.clear();
        }
        self.checker.taken += piece.len() as u64;
        let look_again = self.has(Fault::LooksBehindTheDecision);
        if self.checker.decided.is_none() || look_again {
            self.checker.rest.extend(piece);
            self.checker.decided = None;
            self.go_on();
        }
        let answer = match self.checker.decided {
            Some((answer, _)) => answer,
            None if self.has(Fault::CutsBeforeTheClose) && !self.checker.rest.is_empty() => 2,
            None => 0,
        };
        let place = self.checker.decided.map_or(0, |decided| decided.1);
        self.tell_fault(answer, place);
        vec![answer]
    }

    fn close(&mut self) -> Vec<u8> {
        let (answer, place) = match self.checker.decided {
            Some(decided) => decided,
            None => self.open_answer(),
        };
        self.checker.closed = true;
        self.tell_fault(answer, place);
        let mut told = vec![answer];
        put(&mut told, self.checker.start, 8);
        put(&mut told, self.checker.count, 8);
        told
    }

    /// What the log's end makes of the part of a record that is there: 1 or 2, and where.
    fn open_answer(&self) -> (u8, u64) {
        let Checker { rest, start, .. } = &self.checker;
        match opening(rest, true) {
            Err(answer) => (answer, *start),
            Ok(_) => (2, start + self.whole_actions() as u64),
        }
    }

    /// Where the last action starts that isn't whole, from the record's start on.
    fn whole_actions(&self) -> usize {
        let mut at = 9;
        while let Ok(behind) = self.checked_action(at) {
            at = behind;
        }
        at
    }

    /// Takes what can be taken of the bytes so far: whole records go, and a fault decides.
    fn go_on(&mut self) {
        while self.checker.decided.is_none() && self.take_a_record() {}
    }

    /// Whether a record is whole; the next one may be, too.
    fn take_a_record(&mut self) -> bool {
        let start = self.checker.start;
        let id = match opening(&self.checker.rest, true) {
            Ok(id) => id,
            Err(1) => return false,
            Err(answer) => {
                self.checker.decided = Some((answer, start));
                return false;
            }
        };
        if id != self.checker.expected {
            self.checker.decided = Some((5, start));
            return false;
        }
        let mut at = 9;
        loop {
            let ends = self.checker.rest.get(at) == Some(&4);
            match self.checked_action(at) {
                Ok(behind) if ends => {
                    self.take_whole_record(at, behind);
                    return true;
                }
                Ok(behind) => at = behind,
                Err(2) => return false,
                Err(answer) => {
                    self.checker.decided = Some((answer, start + at as u64));
                    return false;
                }
            }
        }
    }

    fn take_whole_record(&mut self, end_tag: usize, behind: usize) {
        let checker = &mut self.checker;
        let stated = number(&checker.rest[end_tag + 1..behind]);
        if stated != u64::from(checksum(&checker.rest[..=end_tag])) {
            checker.decided = Some((8, checker.start + end_tag as u64));
            return;
        }
        checker.start += behind as u64;
        checker.rest.drain(..behind);
        checker.count += 1;
        match checker.expected.checked_add(1) {
            Some(next) => checker.expected = next,
            None => checker.decided = Some((12, checker.start)),
        }
    }

    /// Where the action ends whose tag stands at a place of the record.
    fn checked_action(&self, at: usize) -> Result<usize, u8> {
        let Checker { rest, directory, .. } = &self.checker;
        if let (Some(tag), Some(table)) = (rest.get(at), rest.get(at + 1..at + 3)) {
            let kind = match tag {
                2 => Some(0),
                3 => Some(1),
                6 => Some(2),
                _ => None,
            };
            let unknown = |kind| directory::find(directory, kind, number(table)).is_none();
            if kind.is_some_and(unknown) && self.has(Fault::DecidesOnTheTableAlone) {
                return Err(6);
            }
        }
        let directory = match self.has(Fault::DirectoryOfTheHost) {
            true => &self.directory,
            false => directory,
        };
        self.action(directory, rest, at).map(|action| action.behind())
    }
}

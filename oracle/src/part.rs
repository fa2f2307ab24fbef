//! The parts of the port that can be generated and counted one without the others.

use crate::protocol::{number, op};

/// Makes the state that all start with.
pub const OPEN_NOTHING: [u8; 3] = [op::OPEN, 0, 0];

#[derive(Debug, Clone, Copy, PartialEq, Eq)]
pub enum Part {
    Steps,
    Replay,
    Lists,
    Queues,
    Lives,
    Places,
    Salvage,
    Checker,
}

impl Part {
    pub const ALL: [Part; 8] = [
        Part::Steps,
        Part::Replay,
        Part::Lists,
        Part::Queues,
        Part::Lives,
        Part::Places,
        Part::Salvage,
        Part::Checker,
    ];

    /// Document 01's. Those of document 02 come only by name.
    pub const OF_01: [Part; 5] =
        [Part::Steps, Part::Replay, Part::Lists, Part::Queues, Part::Lives];

    pub fn name(self) -> &'static str {
        match self {
            Part::Steps => "steps",
            Part::Replay => "replay",
            Part::Lists => "lists",
            Part::Queues => "queues",
            Part::Lives => "lives",
            Part::Places => "places",
            Part::Salvage => "salvage",
            Part::Checker => "checker",
        }
    }

    /// The part of that name; without a name all of document 01.
    pub fn named(name: Option<&str>) -> Option<Vec<Part>> {
        match name {
            None => Some(Part::OF_01.to_vec()),
            Some(name) => {
                Part::ALL.into_iter().find(|part| part.name() == name).map(|part| vec![part])
            }
        }
    }

    /// The parts whose state bears on a command's answer, or may be changed by it; the first is the
    /// one that the command belongs to. None for commands that only hand something over, or take a
    /// checksum.
    pub fn touched_by(command: &[u8]) -> &'static [Part] {
        match command[0] {
            op::STEP_AT | op::STEP => &[Part::Steps],
            op::REPLAY | op::RUN | op::IMAGE_SUM => &[Part::Replay],
            op::INS_INDEX | op::INS_VALUE | op::INS_REF => &[Part::Lists],
            op::DROP | op::DROP_REF | op::LIST_SUM => &[Part::Lists],
            op::WRITE | op::SIZE => &[Part::Lists],
            op::FLUSH | op::READ_NEXT | op::REPLAY_NEXT => &[Part::Queues],
            op::CLEAN | op::KILL => &[Part::Queues],
            op::OPEN | op::CLEAR_REPLAY | op::STATE => &[Part::Queues, Part::Lives],
            op::CLEAR | op::OVERLAYS | op::LAST_ID => &[Part::Lives],
            op::BEGIN | op::LOOKUP | op::VALUE_INTO => &[Part::Lives, Part::Lists],
            op::END => &[Part::Lives, Part::Lists, Part::Queues],
            op::WHERE => &[Part::Places, Part::Steps, Part::Lives],
            op::SALVAGE => &[Part::Salvage],
            op::CHECK_NEW | op::PIECE | op::CLOSE => &[Part::Checker],
            _ => &[],
        }
    }

    /// The part whose call a command makes. None for commands that only look.
    pub fn called_by(command: &[u8]) -> Option<Part> {
        match command[0] {
            op::IMAGE_SUM | op::LIST_SUM | op::STATE | op::OVERLAYS => None,
            op::LOOKUP | op::VALUE_INTO | op::LAST_ID | op::WHERE => None,
            _ => Part::touched_by(command).first().copied(),
        }
    }

    /// Whether calls of another part count in a script of this one.
    pub fn counts(self, called: Part) -> bool {
        self == called || self == Part::Lives && matches!(called, Part::Lists | Part::Queues)
    }

    /// Whether both sides' states of this part are the same behind a command, whatever they were
    /// before. `answer` is what 01 demands.
    pub fn brings_together(self, command: &[u8], answer: &[u8]) -> bool {
        let opened = command[0] == op::OPEN && answer[0] == number::DONE;
        match self {
            Part::Steps => command[0] == op::STEP_AT,
            Part::Replay | Part::Places | Part::Salvage => false,
            Part::Checker => command[0] == op::CHECK_NEW,
            Part::Lists => command[0] == op::NEWLIST,
            Part::Queues => opened || command[0] == op::FORGE_QUEUES,
            Part::Lives => opened,
        }
    }

    /// The commands that a chain of this part's calls starts with: nothing before them but what is
    /// handed over bears on the calls behind.
    pub fn starts_with(self, command: &[u8]) -> bool {
        match self {
            Part::Steps => command[0] == op::STEP_AT,
            Part::Replay => command[0] == op::IMAGE,
            // The reading that a place is told of may be of any part.
            Part::Places => command[0] == op::DIR,
            // Nothing is kept from one to the next.
            Part::Salvage => command[0] == op::SALVAGE,
            Part::Checker => command[0] == op::CHECK_NEW,
            Part::Lists => command[0] == op::NEWLIST,
            // An OPEN of some files may be refused, and then leaves what was before.
            Part::Queues => command[0] == op::FORGE_QUEUES || command == OPEN_NOTHING,
            Part::Lives => command == OPEN_NOTHING,
        }
    }
}

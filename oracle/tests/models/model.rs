//! A stand-in for the port, written from document 01 and the run protocol without a look at log.rs
//! or the driver. It can be given a fault, to see that a comparison finds it.

mod checker;
mod directory;
mod ends;
mod lists;
mod overlays;
mod queues;
mod replay;
mod salvage;
mod steps;
mod writer;

use checker::Checker;
use directory::Table;
use lists::List;
use overlays::Overlays;
use queues::Queues;
use replay::opening;
use std::sync::LazyLock;
use steps::Cursor;

#[derive(Clone, Copy, PartialEq, Eq, Debug)]
pub enum Fault {
    SumsWhatIsntValidated,
    CutOpeningsByBeginAlone,
    AppliesBeforeTheEnd,
    CountsWithoutApplying,
    CountsTheRefused,
    WritesOnRefusal,
    DropLeavesLastByte,
    TakesAnyId,
    EndOfLogBehindTheLastId,
    MaskFromTheTop,
    FirstKeyWins,
    RecordLengthOf16Bits,
    JoinsChunks,
    ForgetsEarlierBits,
    ListedKeyNeedsRoom,
    LengthBeforeIndex,
    DropsOnce,
    DropsUntested,
    WritesInCallOrder,
    WritesWhatFits,
    ZeroesTheRest,
    ShortBeforeBroken,
    CountsBehindDrops,
    SizeOfABrokenList,
    NumbersBeforeRoom,
    TiesAsHandedIn,
    TakesLeadingZero,
    FlushesAtMinimum,
    TestsThePositionUnused,
    EndMovesTwo,
    RefusalMovesFront,
    KeepsTheHighest,
    ReadingBehindReplay,
    KillsCleanup,
    JoinsSharedMasks,
    ClearsAnyId,
    IndexSetsLastId,
    SharedBeforeLocal,
    ClearsUnchecked,
    ClearingForgetsMask0,
    DropsClear,
    ClearingSetsTheNextId,
    ClearsTheLastId,
    KeyInBothCountsTwice,
    StaleBehindRoom,
    NumbersBeforeOverlays,
    ShortBeforeFiles,
    SizeUntested,
    PoolFromTheTop,
    EndTakesTheList,
    BeginsTheLastId,
    ReplayClearedKeepsOverlays,
    ReplayClearedKeepsLastIds,
    CopyEmptiesTheRest,
    ColumnOfAByte,
    OverlayRoomUntested,
    StartOfTheRecord,
    BehindTheTag,
    StartOfTheLastRecord,
    PlaceOfTheRefusalBefore,
    GoesOnBehindWhatWasRead,
    ForgetsTheLastStretch,
    StretchesByteByByte,
    ShortBeforeLines,
    SalvagesUnchecked,
    IdsMustRise,
    SalvagesWhatFits,
    DecidesOnTheTableAlone,
    CutsBeforeTheClose,
    EachPieceByItself,
    TakesBehindTheClose,
    DirectoryOfTheHost,
    LooksBehindTheDecision,
}

pub struct Model {
    fault: Option<Fault>,
    directory: Vec<Table>,
    image: Vec<u8>,
    log: Vec<u8>,
    list: List,
    overlays: Overlays,
    queues: Queues,
    cursor: Cursor,
    /// Where the last reading is at fault, if it was refused.
    fault_at: Option<u64>,
    checker: Checker,
}

impl Model {
    pub fn new(fault: Option<Fault>) -> Model {
        Model {
            fault,
            directory: Vec::new(),
            image: Vec::new(),
            log: Vec::new(),
            list: List::new(1),
            overlays: Overlays::new(),
            queues: Queues::new(),
            cursor: Cursor::default(),
            fault_at: None,
            checker: Checker::new(Vec::new(), 1),
        }
    }

    /// The lines that a port writes for a script.
    pub fn lines(fault: Option<Fault>, script: &[Vec<u8>]) -> Vec<String> {
        let mut model = Model::new(fault);
        script.iter().map(|command| hex(&model.answer(command))).collect()
    }

    fn answer(&mut self, command: &[u8]) -> Vec<u8> {
        let mut take = Take(&command[1..]);
        match command[0] {
            0x01 => {
                let count = take.number(1);
                self.directory = (0..count).map(|_| Table::taken(&mut take)).collect();
                vec![0]
            }
            0x02 => {
                let length = take.number(4) as usize;
                self.image = vec![take.number(1) as u8; length];
                vec![0]
            }
            0x03 => {
                self.log = take.blob().to_vec();
                vec![0]
            }
            0x04 => checksum(take.blob()).to_le_bytes().to_vec(),
            0x05..=0x0a | 0x21 | 0x23 | 0x24 => self.answer_of_list(command[0], &mut take),
            0xf0 => self.write(take.number(4) as usize),
            0xf1 => vec![0],
            0xf2 => self.size(),
            0x10 | 0x14..=0x19 | 0x1c | 0x1f => self.answer_of_queues(command[0], &mut take),
            0x11..=0x13 | 0x20 => self.answer_of_records(command[0], &mut take),
            0x1a | 0x1b | 0x1d | 0x1e | 0x22 => self.answer_of_overlays(command[0], &mut take),
            0x0b | 0x0c => self.step(command[0], &mut take),
            0x36..=0x38 => self.answer_of_checker(command[0], &mut take),
            0x39 => self.salvage(take.number(4) as usize),
            0x30 => {
                let mut answer = vec![u8::from(self.fault_at.is_some())];
                put(&mut answer, self.fault_at.unwrap_or(0), 8);
                answer
            }
            0x0d => self.replay(take.number(8), take.number(8)),
            0x0e => self.run(take.number(8), take.number(8)),
            0x0f => {
                let length = self.image.len() as u32;
                [length.to_le_bytes(), checksum(&self.image).to_le_bytes()].concat()
            }
            _ => vec![0xff],
        }
    }

    /// The record of the list that a script leaves.
    pub fn record_of(script: &[Vec<u8>]) -> Vec<u8> {
        let mut model = Model::new(None);
        script.iter().for_each(|command| drop(model.answer(command)));
        model.record()
    }

    fn has(&self, fault: Fault) -> bool {
        self.fault == Some(fault)
    }
}

fn hex(bytes: &[u8]) -> String {
    bytes.iter().map(|byte| format!("{byte:02x}")).collect()
}

/// ITU-T V.42's, low bit first.
pub fn checksum(bytes: &[u8]) -> u32 {
    static TABLE: LazyLock<Vec<u32>> = LazyLock::new(|| {
        let step =
            |remainder: u32| (remainder >> 1) ^ (0xedb8_8320 & (remainder & 1).wrapping_neg());
        (0..256).map(|byte| (0..8).fold(byte, |all, _| step(all))).collect()
    });
    let table = &*TABLE;
    let shifted = |all: u32, byte: &u8| (all >> 8) ^ table[((all ^ *byte as u32) & 255) as usize];
    !bytes.iter().fold(u32::MAX, shifted)
}

/// The fields of a command, from its front.
pub struct Take<'a>(&'a [u8]);

impl<'a> Take<'a> {
    pub fn bytes(&mut self, length: usize) -> &'a [u8] {
        let (taken, rest) = self.0.split_at(length);
        self.0 = rest;
        taken
    }

    pub fn number(&mut self, length: usize) -> u64 {
        number(self.bytes(length))
    }

    pub fn blob(&mut self) -> &'a [u8] {
        let length = self.number(4) as usize;
        self.bytes(length)
    }
}

/// Puts a number behind an answer.
pub fn put(answer: &mut Vec<u8>, number: u64, length: usize) {
    answer.extend(&number.to_le_bytes()[..length]);
}

pub fn number(bytes: &[u8]) -> u64 {
    bytes.iter().rev().fold(0, |all, byte| all << 8 | u64::from(*byte))
}

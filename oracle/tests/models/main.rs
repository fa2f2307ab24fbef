//! A model of document 01, written apart from the driver, agrees with it as a port should; models
//! with a fault don't.

mod model;
mod written;

use model::{Fault, Model};
use oracle::{
    comparison::{compare, Answers, Tally},
    generator::Generator,
    part::Part,
    protocol::Script,
};

fn differs(script: &Script, answers: &Answers, fault: Option<Fault>) -> Option<String> {
    let lines = Model::lines(fault, script);
    let compared = compare(script, answers, &lines, &mut Tally::default());
    compared.err().map(|difference| format!("command {}: {}", difference.at, difference.why))
}

/// The model agrees on scripts of a part, and is found out with each of the faults.
fn try_part(part: Part, faults: &[Fault]) {
    for seed in 1..=2 {
        let script = Generator::new(seed, &[part]).batch();
        let answers = Answers::to(&script).unwrap();
        assert_eq!(differs(&script, &answers, None), None);
        for fault in faults {
            assert!(differs(&script, &answers, Some(*fault)).is_some(), "{fault:?} isn't found");
        }
    }
}

#[test]
fn steps() {
    try_part(Part::Steps, &[Fault::SumsWhatIsntValidated, Fault::CutOpeningsByBeginAlone]);
}

#[test]
fn replay() {
    let faults = [
        Fault::AppliesBeforeTheEnd,
        Fault::CountsWithoutApplying,
        Fault::CountsTheRefused,
        Fault::WritesOnRefusal,
        Fault::DropLeavesLastByte,
        Fault::TakesAnyId,
        Fault::EndOfLogBehindTheLastId,
        Fault::MaskFromTheTop,
        Fault::FirstKeyWins,
        Fault::RecordLengthOf16Bits,
    ];
    try_part(Part::Replay, &faults);
}

#[test]
fn lists() {
    let faults = [
        Fault::JoinsChunks,
        Fault::ForgetsEarlierBits,
        Fault::ListedKeyNeedsRoom,
        Fault::LengthBeforeIndex,
        Fault::DropsOnce,
        Fault::DropsUntested,
        Fault::WritesInCallOrder,
        Fault::WritesWhatFits,
        Fault::ZeroesTheRest,
        Fault::ShortBeforeBroken,
        Fault::CountsBehindDrops,
        Fault::SizeOfABrokenList,
    ];
    try_part(Part::Lists, &faults);
}

#[test]
fn places() {
    let faults = [
        Fault::StartOfTheRecord,
        Fault::BehindTheTag,
        Fault::StartOfTheLastRecord,
        Fault::PlaceOfTheRefusalBefore,
    ];
    try_part(Part::Places, &faults);
}

#[test]
fn salvage() {
    let faults = [
        Fault::GoesOnBehindWhatWasRead,
        Fault::ForgetsTheLastStretch,
        Fault::StretchesByteByByte,
        Fault::ShortBeforeLines,
        Fault::SalvagesUnchecked,
        Fault::IdsMustRise,
        Fault::SalvagesWhatFits,
    ];
    try_part(Part::Salvage, &faults);
}

#[test]
fn checker() {
    let faults = [
        Fault::DecidesOnTheTableAlone,
        Fault::CutsBeforeTheClose,
        Fault::EachPieceByItself,
        Fault::TakesBehindTheClose,
        Fault::DirectoryOfTheHost,
        Fault::LooksBehindTheDecision,
    ];
    try_part(Part::Checker, &faults);
}

#[test]
fn queues() {
    let faults = [
        Fault::NumbersBeforeRoom,
        Fault::TiesAsHandedIn,
        Fault::TakesLeadingZero,
        Fault::FlushesAtMinimum,
        Fault::TestsThePositionUnused,
        Fault::EndMovesTwo,
        Fault::RefusalMovesFront,
        Fault::KeepsTheHighest,
        Fault::ReadingBehindReplay,
        Fault::KillsCleanup,
    ];
    try_part(Part::Queues, &faults);
}

#[test]
fn lives() {
    let faults = [
        Fault::JoinsSharedMasks,
        Fault::ClearsAnyId,
        Fault::IndexSetsLastId,
        Fault::SharedBeforeLocal,
        Fault::ClearsUnchecked,
        Fault::ClearingForgetsMask0,
        Fault::DropsClear,
        Fault::ClearingSetsTheNextId,
        Fault::ClearsTheLastId,
        Fault::KeyInBothCountsTwice,
        Fault::StaleBehindRoom,
        Fault::NumbersBeforeOverlays,
        Fault::ShortBeforeFiles,
        Fault::SizeUntested,
        Fault::PoolFromTheTop,
        Fault::EndTakesTheList,
        Fault::BeginsTheLastId,
        Fault::ReplayClearedKeepsOverlays,
        Fault::ReplayClearedKeepsLastIds,
        Fault::CopyEmptiesTheRest,
        Fault::ColumnOfAByte,
        Fault::OverlayRoomUntested,
    ];
    try_part(Part::Lives, &faults);
}

//! Random scripts through the crate and through log.rs agree, but for the listed differences.

#[path = "../../tests/host/protocol/mod.rs"]
mod protocol;

use oracle::{
    comparison::{compare, walks_through_records, Answers, Tally},
    generator::Generator,
    part::Part,
};
use protocol::{to_hex, Session};

/// Batches of a part until so many answers are compared.
fn try_part(part: Part, seed: u64, count: u64) {
    let parts = [part];
    let mut generator = Generator::new(seed, &parts);
    let mut tally = Tally::default();
    let mut by_types = 0;
    while tally.calls(&parts) < count {
        let batch = generator.batch();
        let walks = walks_through_records(&batch).unwrap();
        tally.count_records_of_the_rust(&walks);
        for script in [batch, walks].into_iter().filter(|script| !script.is_empty()) {
            let mut session = Session::new();
            let lines: Vec<String> = script.iter().map(|command| to_hex(&session.answer(command))).collect();
            by_types += session.answered_by_types;
            if let Err(difference) = compare(&script, &Answers::to(&script).unwrap(), &lines, &mut tally) {
                panic!("seed {seed}, command {}: {}", difference.at, difference.why);
            }
        }
    }
    let calls = tally.calls(&parts);
    println!(
        "{}, seed {seed}: {calls} calls agree with log.rs; {by_types} lines by the crate's types as well",
        part.name()
    );
}

#[test]
fn lives() {
    (1..=2).for_each(|seed| try_part(Part::Lives, seed, 4_000));
}

#[test]
fn lists() {
    try_part(Part::Lists, 1, 4_000);
}

#[test]
fn queues() {
    try_part(Part::Queues, 1, 4_000);
}

#[test]
fn replay() {
    try_part(Part::Replay, 1, 4_000);
}

#[test]
fn steps() {
    try_part(Part::Steps, 1, 20_000);
}

/// Where each reading is at fault.
#[test]
fn places() {
    try_part(Part::Places, 1, 4_000);
}

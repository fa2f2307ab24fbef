//! What has been compared so far.

use crate::{
    listed::Listed,
    part::Part,
    protocol::{number, op, Fields, Script},
};
use std::fmt;

#[derive(Default)]
pub struct Tally {
    calls: [Calls; Part::ALL.len()],
    listed: [u64; Listed::ALL.len()],
    checksums: u64,
    images: u64,
    lists: u64,
    records_written: u64,
    records_of_the_rust: u64,
    states: u64,
    overlays: u64,
    lookups: u64,
    lookups_that_find: u64,
    last_ids: u64,
    records_replayed: u64,
    records_refused: u64,
    lines_in_both_forms: u64,
    places: u64,
    places_of_faults: u64,
    records_salvaged: u64,
    stretches_lost: u64,
}

/// The calls of one part.
#[derive(Default)]
struct Calls {
    same: u64,
    listed: u64,
    /// Calls behind a listed difference. The Rust has gone on where 01 stays, so they count apart.
    behind: u64,
    /// How often each number was the port's answer.
    numbers: [u64; 16],
}

impl Tally {
    /// How many answers to the calls agree that count for these parts.
    pub fn calls(&self, parts: &[Part]) -> u64 {
        let counted = |part: &Part| parts.iter().any(|of| of.counts(*part));
        let calls: u64 =
            Part::ALL.into_iter().filter(counted).map(|part| self.calls_of(part)).sum();
        calls + if parts.contains(&Part::Places) { self.places } else { 0 }
    }

    fn calls_of(&self, part: Part) -> u64 {
        let calls = &self.calls[part as usize];
        calls.same + calls.listed
    }

    pub fn count_same(&mut self, command: &[u8], answer: &[u8]) {
        if let Some(part) = Part::called_by(command) {
            self.calls[part as usize].same += 1;
            self.count_number(part, answer);
        }
        match command[0] {
            op::REPLAY => self.count_records(answer[0], u64::from(answer[0] == number::DONE)),
            op::RUN => self.count_records(answer[0], Fields(&answer[9..]).u64()),
            op::CRC => self.checksums += 1,
            op::IMAGE_SUM => self.images += 1,
            op::NEWLIST => self.lists += 1,
            op::STATE => self.states += 1,
            op::OVERLAYS => self.overlays += 1,
            op::LAST_ID => self.last_ids += 1,
            op::LOOKUP | op::VALUE_INTO => {
                self.lookups += 1;
                self.lookups_that_find += u64::from(answer[1]);
            }
            op::WHERE => {
                self.places += 1;
                self.places_of_faults += u64::from(answer[0]);
            }
            op::SALVAGE => self.count_lines(&answer[1..]),
            op::WRITE => self.records_written += u64::from(answer[0] == number::DONE),
            _ => {}
        }
    }

    fn count_records(&mut self, number: u8, replayed: u64) {
        self.records_replayed += replayed;
        let refused = number::ENDS_INSIDE..=number::CHECKSUM_DIFFERS;
        self.records_refused += u64::from(refused.contains(&number));
    }

    /// Of a salvage.
    fn count_lines(&mut self, behind_the_number: &[u8]) {
        let mut fields = Fields(behind_the_number);
        for _ in 0..fields.u16() {
            match fields.u8() {
                0 => self.stretches_lost += 1,
                _ => self.records_salvaged += 1,
            }
            let _position_length_and_id = (fields.u64(), fields.u64(), fields.u64());
        }
    }

    pub fn count_listed(&mut self, part: Part, listed: Listed, demanded: &[u8]) {
        self.calls[part as usize].listed += 1;
        self.listed[listed as usize] += 1;
        self.count_number(part, demanded);
    }

    pub fn count_behind(&mut self, part: Option<Part>) {
        if let Some(part) = part {
            self.calls[part as usize].behind += 1;
        }
    }

    /// The records that are handed over to be walked through.
    pub fn count_records_of_the_rust(&mut self, walks: &Script) {
        let walked = walks.iter().filter(|command| command[0] == op::STEP_AT);
        self.records_of_the_rust += walked.count() as u64;
    }

    /// The lines that are the same by value and over lent slices.
    pub fn count_forms(&mut self, script: &Script) {
        self.lines_in_both_forms += script.len() as u64;
    }

    fn count_number(&mut self, part: Part, answer: &[u8]) {
        self.calls[part as usize].numbers[answer[0] as usize] += 1;
    }
}

impl fmt::Display for Tally {
    fn fmt(&self, f: &mut fmt::Formatter) -> fmt::Result {
        for part in Part::ALL {
            let calls = &self.calls[part as usize];
            let all = self.calls_of(part);
            if all == 0 {
                continue;
            }
            write!(f, "{}: {all} answers agree", part.name())?;
            if calls.listed + calls.behind > 0 {
                write!(f, ", {} of them as listed differences", calls.listed)?;
                write!(f, "; {} behind one are as 01 demands", calls.behind)?;
            }
            write!(f, "\n  by number:")?;
            let numbers = calls.numbers.iter().enumerate();
            for (number, count) in numbers.filter(|(_, count)| **count > 0) {
                write!(f, " {number}: {count}")?;
            }
            writeln!(f)?;
        }
        for (listed, count) in Listed::ALL.iter().zip(self.listed).filter(|(_, count)| *count > 0) {
            writeln!(f, "  {count:8} {}", listed.name())?;
        }
        let others = [
            (self.records_replayed, "records replayed"),
            (self.records_refused, "records refused"),
            (self.images, "images agree"),
            (self.lists, "lists"),
            (self.records_written, "records written agree"),
            (self.records_of_the_rust, "records written by the Rust are read"),
            (self.states, "states of the queues agree"),
            (self.overlays, "overlays agree"),
            (self.lookups, "lookups agree"),
            (self.lookups_that_find, "of them find something"),
            (self.last_ids, "last ids agree"),
            (self.places, "places of a fault agree"),
            (self.places_of_faults, "of them tell one"),
            (self.records_salvaged, "records are kept of damaged logs"),
            (self.stretches_lost, "stretches of them are left out"),
            (self.checksums, "checksums agree"),
            (self.lines_in_both_forms, "lines are the same over a lent directory"),
        ];
        for (count, what) in others.into_iter().filter(|(count, _)| *count > 0) {
            writeln!(f, "{count} {what}")?;
        }
        Ok(())
    }
}

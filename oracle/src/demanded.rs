//! What document 01 demands: listed differences by rule, all else as the Rust answers.

use crate::{
    directory::Directory,
    listed::Listed,
    log::driver::Driver,
    names::Found,
    part::Part,
    protocol::{op, tag, Fields, Stepped},
};
use std::io;

/// An answer as demanded, with the listed difference that the command meets.
pub struct ByRule {
    pub answer: Vec<u8>,
    pub listed: Option<Listed>,
}

pub struct Demanded {
    driver: Driver,
    watch: Watch,
}

impl Demanded {
    pub fn new() -> io::Result<Demanded> {
        Ok(Demanded { driver: Driver::new()?, watch: Watch::default() })
    }

    pub fn answer(&mut self, command: &[u8]) -> Vec<u8> {
        self.by_rule(command).answer
    }

    /// The Rust's side, in the state that document 01 demands.
    pub fn driver(&mut self) -> &mut Driver {
        &mut self.driver
    }

    pub fn by_rule(&mut self, command: &[u8]) -> ByRule {
        self.watch.handed(command);
        match Part::called_by(command) {
            Some(Part::Steps) => self.step(command),
            Some(Part::Queues) if command[0] == op::OPEN => self.open(command),
            Some(Part::Queues) if command[0] == op::READ_NEXT => self.read_next(command),
            _ => ByRule { answer: self.driver.answer(command), listed: None },
        }
    }

    fn step(&mut self, command: &[u8]) -> ByRule {
        match self.watch.listed() {
            // The Rust isn't asked, so that its cursor stays, as after every refusal.
            Some((listed, number)) => {
                self.driver.refuse_the_step();
                ByRule { answer: vec![number], listed: Some(listed) }
            }
            None => {
                let answer = self.driver.answer(command);
                self.watch.answered(&answer);
                ByRule { answer, listed: None }
            }
        }
    }

    /// The Rust isn't told of the names that it alone takes.
    fn open(&mut self, command: &[u8]) -> ByRule {
        let mut found = Found::from_fields(&mut Fields(&command[1..]));
        let listed = Listed::in_names(&found).filter(|_| Found::test(&found).is_ok());
        found.retain(|file| file.taken() == file.taken_by_the_rust());
        ByRule { answer: self.driver.answer(&Found::command(&found)), listed }
    }

    /// The front goes back to where it was.
    fn read_next(&mut self, command: &[u8]) -> ByRule {
        let front_is_due = self.driver.front_is_due();
        let listed = Listed::at_the_front(&self.watch.log).filter(|_| front_is_due);
        let answer = self.driver.answer(command);
        if listed.is_some() {
            self.driver.put_front_back();
        }
        ByRule { answer, listed }
    }
}

/// Follows a script as far as the rules need: directory, log, and the cursor that answers left.
#[derive(Default)]
struct Watch {
    directory: Directory,
    log: Vec<u8>,
    position: u64,
    inside: bool,
}

impl Watch {
    /// Takes in what a command hands over, before it is answered.
    fn handed(&mut self, command: &[u8]) {
        let mut fields = Fields(&command[1..]);
        match command[0] {
            op::DIR => self.directory = Directory::from_fields(&mut fields),
            op::LOG => self.log = fields.blob().to_vec(),
            op::STEP_AT => {
                self.position = fields.u64();
                self.inside = false;
            }
            _ => {}
        }
    }

    /// The difference that the step now due meets.
    fn listed(&self) -> Option<(Listed, u8)> {
        if !self.inside || !self.directory.keeps_the_rules() {
            return None;
        }
        Listed::inside(&self.directory, self.log.get(self.position as usize..)?)
    }

    /// Takes in a step's answer; a refusal leaves the cursor.
    fn answered(&mut self, answer: &[u8]) {
        if let Some(stepped) = Stepped::from_answer(answer) {
            self.position = stepped.cursor;
            self.inside = stepped.tag != tag::END;
        }
    }
}

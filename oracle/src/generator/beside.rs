//! What goes along with a script while it is made, for forms that go by what was answered.

use super::Generator;
use crate::{demanded::Demanded, part::Part};

#[derive(Default)]
pub struct Beside {
    side: Option<Demanded>,
    /// How much of the script it has taken.
    taken: usize,
    answer: Vec<u8>,
}

impl Generator {
    /// The side that document 01 demands, having taken what it was given so far.
    pub fn side(&mut self) -> &mut Demanded {
        self.beside.side.get_or_insert_with(|| Demanded::new().expect("a log to go along"))
    }

    /// From here on the script is taken. What the side was left in must not bear on it.
    pub fn take_from_here(&mut self) {
        self.beside.taken = self.script.len();
    }

    /// The answer to the last command that doesn't only look.
    pub fn last_answer(&mut self) -> Vec<u8> {
        let looks = |command: &Vec<u8>| {
            Part::called_by(command).is_none() && !Part::touched_by(command).is_empty()
        };
        let mut due = self.script[self.beside.taken..].to_vec();
        due.retain(|command| !looks(command));
        self.take_from_here();
        for command in due {
            self.beside.answer = self.side().answer(&command);
        }
        self.beside.answer.clone()
    }

    /// The record that is due of the list; empty if the list breaks a rule.
    pub fn record_due(&mut self) -> Vec<u8> {
        self.last_answer();
        self.side().driver().record_due().unwrap_or_default()
    }
}

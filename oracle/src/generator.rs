//! Random scripts. Each form aims at one part of document 01 and hands over all that it needs, so
//! that forms can follow each other in any order.

mod beside;
mod checkers;
mod directories;
mod forging;
mod lists;
mod lives;
mod log_bytes;
mod places;
mod queues;
mod records;
mod replays;
mod salvages;
mod steps;
mod writing;

use self::{beside::Beside, directories::random_directory};
use crate::{
    directory::Directory,
    part::Part,
    protocol::{lent, op, tag, with_blob, Script, LONGEST_LOG},
    random::Random,
};

pub struct Generator {
    random: Random,
    script: Script,
    /// What is generated.
    parts: Vec<Part>,
    /// Short logs and blobs, for a script that is kept as a file.
    small: bool,
    beside: Beside,
}

type Form = fn(&mut Generator);

impl Generator {
    pub fn new(seed: u64, parts: &[Part]) -> Generator {
        let random = Random::new(seed);
        let (script, parts) = (Script::new(), parts.to_vec());
        Generator { random, script, parts, small: false, beside: Beside::default() }
    }

    /// A long script of all forms.
    pub fn batch(&mut self) -> Script {
        for part in self.parts.clone() {
            let (forms, commands) = forms_of(part);
            self.all_forms(part, &forms, commands);
        }
        std::mem::take(&mut self.script)
    }

    /// A short script of all forms, to be kept.
    pub fn sample(seed: u64, parts: &[Part]) -> Script {
        let mut generator = Generator { small: true, ..Generator::new(seed, parts) };
        for part in parts {
            let (forms, _) = forms_of(*part);
            generator.all_forms(*part, &forms, 60);
        }
        in_both_forms(generator.script)
    }

    /// Each form as often as it takes to make so many commands.
    fn all_forms(&mut self, part: Part, forms: &[Form], commands: usize) {
        let start = self.script.len();
        for form in forms {
            let enough = self.script.len() + commands;
            while self.script.len() < enough {
                form(self);
            }
        }
        if part == Part::Places {
            let made = self.script.split_off(start);
            self.script.extend(places::asked(made));
        }
    }
}

/// Every other directory is handed on as a lent slice.
fn in_both_forms(script: Script) -> Script {
    let mut both = Script::new();
    let mut is_lent = false;
    for command in script {
        if command[0] == op::DIR {
            both.push(lent(is_lent));
            is_lent = !is_lent;
        }
        both.push(command);
    }
    both
}

/// The forms of a part, and how many commands of each a long script has.
fn forms_of(part: Part) -> (Vec<Form>, usize) {
    match part {
        Part::Steps => (steps::FORMS.to_vec(), 5_000),
        Part::Replay => (replays::FORMS.to_vec(), 1_000),
        Part::Lists => (lists::FORMS.to_vec(), 1_000),
        Part::Queues => (queues::FORMS.to_vec(), 2_000),
        Part::Lives => (lives::FORMS.to_vec(), 400),
        Part::Checker => (checkers::FORMS.to_vec(), 300),
        Part::Salvage => (salvages::FORMS.to_vec(), 400),
        Part::Places => ([&places::FORMS[..], &replays::FORMS, &steps::FORMS].concat(), 500),
    }
}

/// The commands.
impl Generator {
    fn directory(&mut self) -> Directory {
        random_directory(&mut self.random)
    }

    fn hand_directory(&mut self) -> Directory {
        let directory = self.directory();
        self.script.push(directory.command());
        directory
    }

    fn hand_broken_directory(&mut self, broken: fn(&mut Random, &mut Directory)) {
        let mut directory = self.directory();
        broken(&mut self.random, &mut directory);
        self.script.push(directory.command());
    }

    fn hand_log(&mut self, bytes: &[u8]) {
        assert!(bytes.len() <= LONGEST_LOG);
        self.script.push(with_blob(op::LOG, bytes));
    }

    /// A log with a tag at a place and so many bytes behind it.
    fn hand_opening(&mut self, start: usize, tag: u8, behind: usize) {
        let mut bytes = self.random.bytes(start + 1 + behind);
        bytes[start] = tag;
        if tag == tag::END && behind >= 4 && self.random.one_in(2) {
            let right = crc32fast::hash(&[tag::END]);
            bytes[start + 1..start + 5].copy_from_slice(&right.to_le_bytes());
        }
        self.hand_log(&bytes);
    }
}

//! The forms for WHERE: readings of all parts, each with the question where it is at fault behind it.

use super::{directories::directory_for_image, Form, Generator};
use crate::protocol::{op, Script};

pub const FORMS: [Form; 3] =
    [Generator::every_byte_damaged, Generator::clearings, Generator::faulty_clearings];

impl Generator {
    /// Each byte of a log of several records changed, one at a time.
    fn every_byte_damaged(&mut self) {
        let directory = directory_for_image(&mut self.random, 20_000);
        self.script.push(directory.command());
        let first = self.random.number() >> 1;
        let log = self.short_log(|generator| generator.run_of_records(&directory, first, 3, 2));
        for place in 0..log.bytes.len() {
            let mut bytes = log.bytes.clone();
            let (bit, any) = (1 << self.random.below(8), self.random.number() as u8);
            bytes[place] = self.random.pick(&[bytes[place] ^ bit, any]);
            self.hand_log(&bytes);
            self.run_on_image(&directory, 0, first);
        }
    }
}

/// A script with WHERE behind each reading, and now and then before it: no other call touches it.
pub fn asked(script: Script) -> Script {
    let mut with_places = Script::new();
    for command in script {
        let reads = matches!(command[0], op::STEP_AT | op::STEP | op::REPLAY | op::RUN | op::CLEAR);
        with_places.push(command);
        if reads || with_places.len() % 7 == 0 {
            with_places.push(vec![op::WHERE]);
        }
    }
    with_places
}

//! The run protocol, answered through this crate: each command by the tested calls over words (`by_words`), and where no
//! state was forged by the crate's types as well (`by_types`), which must answer the same.

mod by_types;
mod by_words;
mod fields;
mod telling;

use by_types::ByTypes;
use by_words::ByWords;

/// What answers a script.
pub struct Session {
    words: ByWords,
    types: ByTypes,
    /// How many commands the types answered as well.
    pub answered_by_types: usize,
}

impl Session {
    pub fn new() -> Session {
        Session { words: ByWords::new(), types: ByTypes::new(), answered_by_types: 0 }
    }

    pub fn answer(&mut self, command: &[u8]) -> Vec<u8> {
        let answer = self.words.answer(command);
        if let Some(by_types) = self.types.answer(command) {
            assert_eq!(to_hex(&answer), to_hex(&by_types), "words and types differ at {}", to_hex(command));
            self.answered_by_types += 1;
        }
        answer
    }
}

pub fn to_hex(bytes: &[u8]) -> String {
    bytes.iter().map(|byte| format!("{byte:02x}")).collect()
}

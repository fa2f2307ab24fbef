//! Overlays, lists, directories and queues that break a rule, under the calls that must then answer
//! 13. A call that isn't handed the broken thing may answer otherwise, and isn't made.

use super::{
    full::{Keys, ROOM},
    Generator,
};
use crate::{
    directory::Kind,
    generator::{directories::BREAKS, forging::LIST_BREAKS, queues::QUEUE_BREAKS},
    part::OPEN_NOTHING,
    protocol::{op, LONGEST_OUTPUT},
};

/// Where an entry is forged.
#[derive(Clone, Copy)]
enum Place {
    List,
    Shared,
}

/// A rule that an entry or more breaks.
#[derive(Clone, Copy, PartialEq, Eq)]
enum Break {
    KeyTwice,
    RoomPassed,
    Mask0,
    EmptyValue,
    LongValue,
}

impl Generator {
    /// Each rule broken in each kind. An open ends it, and the record is cleared then.
    pub fn broken_overlays(&mut self) {
        for kind in Kind::ALL {
            let breaks: &[Break] = match kind {
                Kind::Value => {
                    &[Break::KeyTwice, Break::RoomPassed, Break::EmptyValue, Break::LongValue]
                }
                Kind::Index | Kind::RefCount => &[Break::KeyTwice, Break::RoomPassed, Break::Mask0],
            };
            for broken in breaks {
                let directory = self.start_life(300, 400);
                let keys = Keys::of(&directory, kind);
                let log = self.run_of_records(&directory, 3, 1, 3);
                self.hand_log(&log.bytes);
                self.script.push(vec![op::BEGIN]);
                self.some_changes(&directory, 2);
                self.forge_break(*broken, Place::Shared, &keys);
                self.calls_with_overlays(&keys);
                // A mask of 0 can be shown: any state type has room for it.
                if *broken == Break::Mask0 {
                    self.look_at_all();
                }
                self.script.push(OPEN_NOTHING.to_vec());
                self.clear_at(0);
            }
        }
    }

    /// All that is handed the shared overlay of the kind.
    fn calls_with_overlays(&mut self, keys: &Keys) {
        self.end_of_any_length();
        let position = self.random.pick(&[0, u64::MAX]);
        self.script.push([&[op::CLEAR], &position.to_le_bytes()[..]].concat());
        self.script.push(vec![op::CLEAR_REPLAY]);
        self.look_up_keys(keys, &[0, 1]);
    }

    fn end_of_any_length(&mut self) {
        let length = self.random.pick(&[0, LONGEST_OUTPUT]) as u32;
        self.script.push([&[op::END], &length.to_le_bytes()[..]].concat());
    }

    /// A key that is there, and one that isn't.
    fn look_up_keys(&mut self, keys: &Keys, with_list: &[u8]) {
        for place in [1, 299] {
            let (table, index) = keys.key(place);
            for with_list in with_list {
                self.look_up(&table, table.number, index, *with_list);
            }
        }
    }

    /// Under END, and where no directory is needed to tell under lookups with the list; without it
    /// they go on.
    pub fn broken_lists(&mut self) {
        let directory = self.start_life(300, 400);
        for (forge, shown) in LIST_BREAKS {
            self.begin();
            self.some_changes(&directory, 2);
            forge(self, &directory);
            self.end_of_any_length();
            if shown {
                self.look_at_all();
            }
            self.hand_list_of(1);
        }
        for kind in Kind::ALL {
            let keys = Keys::of(&directory, kind);
            self.forge_key(&keys, 1);
            for broken in [Break::KeyTwice, Break::RoomPassed, Break::Mask0] {
                // A value has no mask.
                if broken == Break::Mask0 && kind == Kind::Value {
                    continue;
                }
                self.hand_list_of(1);
                self.forge_break(broken, Place::List, &keys);
                self.look_up_keys(&keys, &[1]);
                if broken == Break::Mask0 {
                    self.look_up_keys(&keys, &[0]);
                }
            }
            self.hand_list_of(1);
            self.look_up_keys(&keys, &[0, 1]);
        }
    }

    pub fn broken_directories_at_an_end(&mut self) {
        let good = self.start_small_life();
        for broken in BREAKS {
            self.begin();
            self.some_changes(&good, 2);
            let mut directory = good.clone();
            broken(&mut self.random, &mut directory);
            self.script.push(directory.command());
            self.end_of_any_length();
            self.look_at_all();
            self.script.push(good.command());
            self.end_into(LONGEST_OUTPUT);
        }
    }

    pub fn broken_queues_at_an_end(&mut self) {
        for (broken, shown) in QUEUE_BREAKS {
            let directory = self.start_small_life();
            self.begin();
            self.some_changes(&directory, 3);
            let good = self.hand_broken_queues(broken);
            self.end_of_any_length();
            self.script.push(vec![op::CLEAR_REPLAY]);
            if shown {
                self.look_at_all();
            } else {
                // A state that is too large may only be left by an open.
                self.script.push(OPEN_NOTHING.to_vec());
                self.script.push(vec![op::BEGIN]);
            }
            self.script.push(good.command());
            self.end_into(LONGEST_OUTPUT);
            self.call_and_look_at_all(vec![op::CLEAR_REPLAY]);
        }
    }

    fn forge_break(&mut self, broken: Break, place: Place, keys: &Keys) {
        let (table, _) = keys.key(1);
        let bytes = table.place_bytes();
        match broken {
            Break::KeyTwice => (0..2).for_each(|_| self.forge_at(place, keys, 1, 1, bytes)),
            Break::RoomPassed => {
                let room = match place {
                    Place::List => keys.room_in_a_list(),
                    Place::Shared => ROOM,
                };
                for key in 0..=room {
                    let (table, _) = keys.key(key);
                    self.forge_at(place, keys, key, 1, table.place_bytes());
                }
            }
            Break::Mask0 => self.forge_at(place, keys, 1, 0, bytes),
            Break::EmptyValue => self.forge_at(place, keys, 1, 0, 0),
            Break::LongValue => self.forge_at(place, keys, 1, 0, 513),
        }
    }

    fn forge_at(&mut self, place: Place, keys: &Keys, key: usize, mask: u64, length: usize) {
        let (table, index) = keys.key(key);
        match place {
            Place::List => self.forge_entry(keys.kind, table.number, index, mask, length),
            Place::Shared => self.forge_shared(keys.kind, table.number, index, 1, mask, length),
        }
    }
}

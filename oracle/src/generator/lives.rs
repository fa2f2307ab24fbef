//! The forms for overlays and records: lists ended, looked up and cleared, beside the file queues.
//! Each starts a life of its own, with an open of no files, and looks at queues and overlays behind
//! every call.

mod broken;
mod clearings;
mod ends;
mod full;
mod host;
mod lookups;
mod whole;

use super::{
    directories::directory_of_all_kinds,
    queues::{with_number, Queues},
    Form, Generator,
};
use crate::{directory::Directory, part::OPEN_NOTHING, protocol::op};

pub const FORMS: [Form; 12] = [
    Generator::whole_lives,
    Generator::full_overlays,
    Generator::refused_ends,
    Generator::last_records,
    Generator::other_directories,
    Generator::clearings,
    Generator::faulty_clearings,
    Generator::forged_lookups,
    Generator::broken_overlays,
    Generator::broken_lists,
    Generator::broken_directories_at_an_end,
    Generator::broken_queues_at_an_end,
];

/// The commands.
impl Generator {
    /// An open of no files, an empty list, and a directory with so many places in a table.
    fn start_life(&mut self, least: usize, most: usize) -> Directory {
        self.take_from_here();
        self.script.push(OPEN_NOTHING.to_vec());
        self.hand_list_of(1);
        let directory = directory_of_all_kinds(&mut self.random, least, most);
        self.script.push(directory.command());
        directory
    }

    /// The same with few places, so that keys repeat and all can be looked up.
    fn start_small_life(&mut self) -> Directory {
        let most = if self.small { 2 } else { 6 };
        self.start_life(1, most)
    }

    fn call_and_look_at_all(&mut self, command: Vec<u8>) {
        self.script.push(command);
        self.look_at_all();
    }

    fn look_at_all(&mut self) {
        self.script.extend([vec![op::STATE], vec![op::OVERLAYS]]);
    }

    fn begin(&mut self) {
        self.call_and_look_at_all(vec![op::BEGIN]);
    }

    fn end_into(&mut self, output_length: usize) {
        let length = (output_length as u32).to_le_bytes();
        self.call_and_look_at_all([&[op::END], &length[..]].concat());
    }

    fn clear_at(&mut self, position: u64) {
        self.call_and_look_at_all(with_number(op::CLEAR, position));
    }

    fn forge_next_id(&mut self, id: u64) {
        self.script.push(with_number(op::FORGE_NEXT_ID, id));
    }

    fn some_changes(&mut self, directory: &Directory, most: usize) {
        for _ in 0..self.random.between(0, most) {
            self.good_change(directory);
        }
    }

    fn queues_now(&mut self) -> Queues {
        self.last_answer();
        Queues::from_state(&self.side().answer(&[op::STATE]))
    }

    fn a_mask(&mut self) -> u64 {
        let bit = 1 << self.random.below(64);
        let many = self.random.number() | bit;
        self.random.pick(&[bit, many, u64::MAX])
    }
}

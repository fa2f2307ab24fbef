//! Whole lives.

use super::host::Host;
use crate::{
    directory::Directory,
    generator::{
        queues::{reading, with_number},
        Generator,
    },
    names::Found,
    protocol::{number, op, Fields, LONGEST_OUTPUT},
    written::id_of,
};

/// Behind so many bytes a file is flushed, so that a log has room for it with one more record.
const LONG_FILE: u64 = 25_000;

impl Generator {
    /// Lists built, looked into and ended; files flushed, read, cleared, cleaned and opened again.
    pub fn whole_lives(&mut self) {
        let directory = self.start_small_life();
        let mut host = Host::default();
        for _ in 0..if self.small { 40 } else { 250 } {
            match self.random.below(20) {
                0..=5 => self.live_a_record(&directory, &mut host),
                6..=8 => self.flush_in_life(),
                9..=14 => self.read_a_record(&directory, &mut host),
                15..=16 => self.clear_any_record(&mut host),
                17..=18 => self.clean_in_life(&mut host),
                _ => self.rare_call(&directory, &mut host),
            }
        }
        self.look_up_all(&directory);
    }

    fn live_a_record(&mut self, directory: &Directory, host: &mut Host) {
        if self.queues_now().size > LONG_FILE {
            self.call_and_look_at_all(with_number(op::FLUSH, 0));
        }
        self.begin();
        self.some_changes(directory, 6);
        self.look_at_list();
        if self.random.one_in(3) {
            self.look_up_all(directory);
        }
        let exact = self.record_due().len();
        if self.random.one_in(4) {
            let short = self.random.pick(&[0, 13, exact.saturating_sub(1)]);
            self.end_into(short);
        }
        // Now and then the same list once more.
        for _ in 0..self.random.pick(&[1, 1, 1, 1, 2]) {
            let length = self.random.pick(&[exact, exact + 1, LONGEST_OUTPUT]);
            self.end_into(length);
            let answer = self.last_answer();
            host.ended(&answer);
        }
        if self.random.one_in(3) {
            self.look_up_all(directory);
        }
    }

    /// A list that wasn't begun last: abandoned, older, or not begun at all.
    fn end_another_list(&mut self, directory: &Directory) {
        self.begin();
        let begun = self.last_answer();
        let id = Fields(&begun[1..]).u64();
        match self.random.below(3) {
            0 => self.begin(),
            _ => {
                let any = self.random.number().max(1);
                let other = self.random.pick(&[id + 1, id.saturating_sub(1).max(1), any, u64::MAX]);
                self.hand_list_of(other);
            }
        }
        self.some_changes(directory, 2);
        self.look_at_list();
        if self.random.one_in(2) {
            self.hand_list_of(id);
        }
        // It is refused in any case, so that the host's files stay those of the log.
        let no_record_is_so_short = 13;
        self.end_into(no_record_is_so_short);
    }

    fn flush_in_life(&mut self) {
        let size = self.queues_now().size;
        let minimum = self.random.pick(&[0, 0, 0, 0, 0, size, size.wrapping_sub(1), 50]);
        self.call_and_look_at_all(with_number(op::FLUSH, minimum));
    }

    /// The next record of the file that is due: opened, replayed, and most often cleared.
    fn read_a_record(&mut self, directory: &Directory, host: &mut Host) {
        let queues = self.queues_now();
        let from_front = queues.reading.is_none();
        if from_front {
            host.position = 0;
        }
        let mut bytes = host.bytes_of(queues.reading.or(queues.read_queue.first().copied()));
        let spoilt = !bytes.is_empty() && self.random.one_in(24);
        if spoilt {
            let place = if from_front { 0 } else { self.random.below(bytes.len()) };
            bytes[place] = self.random.below(10) as u8;
        }
        self.hand_log(&bytes);
        let validate = self.random.below(2) as u8;
        self.call_and_look_at_all(reading(host.position, validate));
        let answer = self.last_answer();
        match answer[0] {
            number::DONE => {
                let mut fields = Fields(&answer[1..]);
                let (id, start) = (fields.u64(), fields.u64() - 9);
                self.clear_in_place(directory, host, &bytes, start, id);
            }
            // The two sides' queues may be apart now, until the log is opened again.
            _ if spoilt && from_front => {
                self.live_a_record(directory, host);
                self.open_again(directory, host);
            }
            _ => {}
        }
    }

    fn clear_in_place(
        &mut self,
        directory: &Directory,
        host: &mut Host,
        bytes: &[u8],
        start: u64,
        id: u64,
    ) {
        if self.random.one_in(2) {
            self.replay_on_image(directory, start as usize, id);
        }
        host.position = start + host.length_at(bytes, start as usize) as u64;
        if !self.random.one_in(4) {
            self.clear_at(start);
        }
    }

    /// A record that was ended some time, alone or with another behind it, whole or damaged: out of
    /// order, and again.
    fn clear_any_record(&mut self, host: &mut Host) {
        if host.records.is_empty() {
            return;
        }
        let place = self.random.below(host.records.len());
        let mut log = host.records[place].clone();
        let behind = log.len();
        let other = self.random.below(host.records.len());
        if log.len() + host.records[other].len() < LONGEST_OUTPUT {
            log.extend(&host.records[other]);
        }
        if self.random.one_in(5) {
            let place = self.random.below(log.len());
            log[place] ^= 1 << self.random.below(8);
        }
        self.hand_log(&log);
        self.clear_at(0);
        if self.random.one_in(2) {
            self.clear_at(behind as u64);
        }
    }

    fn clean_in_life(&mut self, host: &mut Host) {
        let most = self.random.pick(&[0, 1, 2, 64, u64::MAX]);
        self.call_and_look_at_all(with_number(op::CLEAN, most));
        let answer = self.last_answer();
        host.cleaned(&answer);
    }

    fn rare_call(&mut self, directory: &Directory, host: &mut Host) {
        match self.random.below(8) {
            0..=2 => self.end_another_list(directory),
            3..=4 => self.open_again(directory, host),
            5 => self.call_and_look_at_all(vec![op::CLEAR_REPLAY]),
            6 => {
                self.call_and_look_at_all(vec![op::KILL]);
                let answer = self.last_answer();
                host.removed(&answer);
                host.position = 0;
            }
            _ => {
                self.call_and_look_at_all(vec![op::REPLAY_NEXT]);
                host.position = 0;
            }
        }
    }

    /// Opened with what the host has; then the replay, of all files or of some.
    fn open_again(&mut self, directory: &Directory, host: &mut Host) {
        self.call_and_look_at_all(Found::command(&host.found()));
        let answer = self.last_answer();
        host.removed(&answer);
        self.hand_list_of(1);
        let files = host.found().len();
        for _ in 0..self.random.between(0, files + 1) {
            self.call_and_look_at_all(vec![op::REPLAY_NEXT]);
            let answer = self.last_answer();
            let bytes = host.bytes_of(Fields(&answer[1..]).file());
            self.recover_file(directory, &bytes);
        }
        if !self.random.one_in(3) {
            self.call_and_look_at_all(vec![op::CLEAR_REPLAY]);
        }
        host.position = 0;
    }

    /// A run, and each record cleared, up to what stands behind the last.
    fn recover_file(&mut self, directory: &Directory, bytes: &[u8]) {
        if bytes.is_empty() {
            return;
        }
        self.hand_log(bytes);
        self.run_on_image(directory, 0, id_of(bytes));
        let mut position = 0;
        loop {
            self.clear_at(position);
            let answer = self.last_answer();
            if answer[0] != number::DONE {
                return;
            }
            position = Fields(&answer[1..]).u64();
        }
    }
}

//! 01, "File numbers".

use super::{number, opening, overlays::Overlays, put, Fault, Model, Take};

pub struct Queues {
    pub appending: Option<u64>,
    pub size: u64,
    pub reading: Option<u64>,
    pub read_queue: Vec<u64>,
    pub cleanup: Vec<u64>,
    pub pool: Vec<u64>,
    /// Number and id.
    pub replay: Vec<(u64, u64)>,
    pub next: u64,
    pub dirty: bool,
}

impl Queues {
    /// As open of no files leaves them.
    pub fn new() -> Queues {
        Queues {
            appending: None,
            size: 0,
            reading: None,
            read_queue: Vec::new(),
            cleanup: Vec::new(),
            pool: Vec::new(),
            replay: Vec::new(),
            next: 0,
            dirty: true,
        }
    }

    /// Of all places.
    pub fn numbers(&self) -> Vec<u64> {
        let mut numbers: Vec<u64> = Vec::new();
        numbers.extend(self.appending);
        numbers.extend(self.reading);
        numbers.extend(&self.read_queue);
        numbers.extend(&self.cleanup);
        numbers.extend(&self.pool);
        numbers.extend(self.replay.iter().map(|(number, _)| number));
        numbers
    }

    pub fn keep_the_rules(&self) -> bool {
        let mut numbers = self.numbers();
        let files = numbers.len();
        numbers.sort();
        numbers.dedup();
        let below_next = numbers.last().is_none_or(|greatest| *greatest < self.next);
        let ascending = self.pool.windows(2).all(|pair| pair[0] < pair[1]);
        let fits = files <= 64 && self.pool.len() <= 16 && self.size < 1 << 63;
        numbers.len() == files && below_next && ascending && fits
    }

    fn state(&self, overlays: &Overlays) -> Vec<u8> {
        let mut state = Vec::new();
        put(&mut state, self.appending.is_some().into(), 1);
        put(&mut state, self.appending.unwrap_or(0), 4);
        put(&mut state, self.size, 8);
        put(&mut state, self.reading.is_some().into(), 1);
        put(&mut state, self.reading.unwrap_or(0), 4);
        for queue in [&self.read_queue, &self.cleanup, &self.pool] {
            nums(&mut state, queue);
        }
        put(&mut state, self.replay.len() as u64, 2);
        for (number, id) in &self.replay {
            put(&mut state, *number, 4);
            put(&mut state, *id, 8);
        }
        put(&mut state, self.next, 4);
        put(&mut state, overlays.next_id, 8);
        put(&mut state, self.dirty.into(), 1);
        overlays.last_ids.iter().for_each(|id| put(&mut state, *id, 8));
        state
    }
}

fn nums(answer: &mut Vec<u8>, numbers: &[u64]) {
    put(answer, numbers.len() as u64, 2);
    numbers.iter().for_each(|number| put(answer, *number, 4));
}

impl Model {
    /// The commands 10, 14 to 19, 1c and 1f.
    pub fn answer_of_queues(&mut self, command: u8, take: &mut Take) -> Vec<u8> {
        match command {
            0x10 => return self.open(take),
            0x1c => return self.queues.state(&self.overlays),
            0x1f => {
                self.forge(take);
                return vec![0];
            }
            _ => {}
        }
        let kept = self.queues.keep_the_rules();
        match command {
            0x14 if kept => self.flush(take.number(8)),
            0x14 => vec![13, 0],
            0x15 if kept => self.read_next(take.number(8), take.number(1) == 1),
            0x16 if kept => self.replay_next(),
            0x16 => vec![13, 0, 0, 0, 0, 0],
            0x17 if kept => self.clean(take.number(8)),
            0x17 => vec![13, 0, 0, 0, 0, 0],
            0x18 if kept && self.overlays_keep_the_rules() => self.clear_replay(),
            0x19 if kept => self.kill(),
            0x19 => vec![13, 0, 0],
            _ => vec![13],
        }
    }

    fn open(&mut self, take: &mut Take) -> Vec<u8> {
        let mut taken = Vec::new();
        for _ in 0..take.number(2) {
            let length = take.number(1) as usize;
            let name = take.bytes(length);
            let bytes = take.blob();
            if let Some(number) = self.number_of(name) {
                taken.push((number, bytes));
            }
        }
        let mut numbers: Vec<u64> = taken.iter().map(|(number, _)| *number).collect();
        numbers.sort();
        if numbers.windows(2).any(|pair| pair[0] == pair[1]) {
            return vec![13];
        }
        let (kept, short): (Vec<_>, Vec<_>) =
            taken.into_iter().partition(|(_, bytes)| bytes.len() >= 9);
        let too_many = kept.len() > 64;
        let last = kept.iter().any(|(number, _)| *number == u64::from(u32::MAX));
        if too_many && !(last && self.has(Fault::NumbersBeforeRoom)) {
            return vec![9];
        }
        if last {
            return vec![12];
        }
        let mut replay: Vec<(u64, u64)> =
            kept.iter().map(|(file, bytes)| (*file, number(&bytes[1..9]))).collect();
        if self.has(Fault::TiesAsHandedIn) {
            replay.sort_by_key(|(_, id)| *id);
        } else {
            replay.sort_by_key(|(number, id)| (*id, *number));
        }
        let next = replay.iter().map(|(number, _)| number + 1).max().unwrap_or(0);
        self.queues = Queues { replay, next, ..Queues::new() };
        self.overlays = Overlays::new();
        let removed: Vec<u64> = short.into_iter().map(|(number, _)| number).collect();
        let mut answer = vec![0];
        nums(&mut answer, &removed);
        answer
    }

    fn number_of(&self, name: &[u8]) -> Option<u64> {
        let digits = name.strip_prefix(b"log")?;
        let fits = (1..=10).contains(&digits.len()) && digits.iter().all(u8::is_ascii_digit);
        let zero = digits.len() > 1 && digits[0] == b'0' && !self.has(Fault::TakesLeadingZero);
        if !fits || zero {
            return None;
        }
        let number = digits.iter().fold(0, |all, digit| all * 10 + u64::from(digit - b'0'));
        (number <= u32::MAX.into()).then_some(number)
    }

    fn flush(&mut self, minimum: u64) -> Vec<u8> {
        let at_minimum = self.has(Fault::FlushesAtMinimum) && self.queues.size == minimum;
        let moves = self.queues.size > minimum || at_minimum;
        if moves {
            self.queues.read_queue.extend(self.queues.appending.take());
            self.queues.size = 0;
        }
        vec![0, moves.into()]
    }

    fn read_next(&mut self, position: u64, validate: bool) -> Vec<u8> {
        let from_front = self.queues.reading.is_none();
        let tested = !from_front || self.has(Fault::TestsThePositionUnused);
        if from_front && self.queues.read_queue.is_empty() {
            return vec![1];
        }
        if tested && position > self.log.len() as u64 {
            return vec![14];
        }
        let start = if from_front { 0 } else { position };
        let opened = opening(&self.log[start as usize..], validate);
        let (two, moves) = (self.has(Fault::EndMovesTwo), self.has(Fault::RefusalMovesFront));
        let queues = &mut self.queues;
        let file = |queues: &mut Queues| match from_front {
            true => queues.read_queue.remove(0),
            false => queues.reading.take().unwrap(),
        };
        match opened {
            Ok(id) => {
                let file = file(queues);
                queues.reading = Some(file);
                let mut answer = vec![0];
                put(&mut answer, id, 8);
                put(&mut answer, start + 9, 8);
                answer
            }
            Err(1) => {
                let file = file(queues);
                queues.cleanup.push(file);
                if two && !queues.read_queue.is_empty() {
                    queues.cleanup.push(queues.read_queue.remove(0));
                }
                vec![1]
            }
            Err(answer) => {
                if moves && from_front {
                    queues.reading = Some(queues.read_queue.remove(0));
                }
                vec![answer]
            }
        }
    }

    fn replay_next(&mut self) -> Vec<u8> {
        let queues = &mut self.queues;
        queues.cleanup.extend(queues.reading.take());
        if !queues.replay.is_empty() {
            queues.reading = Some(queues.replay.remove(0).0);
        }
        let mut answer = vec![0, queues.reading.is_some().into()];
        put(&mut answer, queues.reading.unwrap_or(0), 4);
        answer
    }

    fn clean(&mut self, most: u64) -> Vec<u8> {
        let keeps_highest = self.has(Fault::KeepsTheHighest);
        let queues = &mut self.queues;
        let count = most.min(queues.cleanup.len() as u64) as usize;
        let emptied: Vec<u64> = queues.cleanup.drain(..count).collect();
        queues.pool.extend(&emptied);
        queues.pool.sort();
        let over = queues.pool.len().saturating_sub(16);
        let removed: Vec<u64> = match keeps_highest {
            true => queues.pool.drain(..over).collect(),
            false => queues.pool.drain(queues.pool.len() - over..).collect(),
        };
        let mut answer = vec![0, (!queues.cleanup.is_empty()).into()];
        nums(&mut answer, &emptied);
        nums(&mut answer, &removed);
        answer
    }

    fn clear_replay(&mut self) -> Vec<u8> {
        let reading_last = self.has(Fault::ReadingBehindReplay);
        let queues = &mut self.queues;
        let reading = queues.reading.take();
        let replay: Vec<u64> = queues.replay.drain(..).map(|(number, _)| number).collect();
        queues.cleanup.extend(reading.filter(|_| !reading_last));
        queues.cleanup.extend(replay);
        queues.cleanup.extend(reading.filter(|_| reading_last));
        queues.dirty = false;
        if !self.has(Fault::ReplayClearedKeepsOverlays) {
            self.overlays.entries = Default::default();
        }
        if !self.has(Fault::ReplayClearedKeepsLastIds) {
            self.overlays.last_ids = [0; 8];
        }
        vec![0]
    }

    fn kill(&mut self) -> Vec<u8> {
        let all = self.has(Fault::KillsCleanup);
        let queues = &mut self.queues;
        let mut removed: Vec<u64> = queues.pool.drain(..).collect();
        removed.extend(queues.reading.take());
        if all {
            removed.append(&mut queues.cleanup);
        }
        let mut answer = vec![0];
        nums(&mut answer, &removed);
        answer
    }

    fn forge(&mut self, take: &mut Take) {
        let one = |take: &mut Take| {
            let is_there = take.number(1) == 1;
            let number = take.number(4);
            is_there.then_some(number)
        };
        let many = |take: &mut Take| -> Vec<u64> {
            let count = take.number(2);
            (0..count).map(|_| take.number(4)).collect()
        };
        self.queues = Queues {
            appending: one(take),
            size: take.number(8),
            reading: one(take),
            read_queue: many(take),
            cleanup: many(take),
            pool: many(take),
            replay: many(take).into_iter().map(|number| (number, 0)).collect(),
            next: take.number(4),
            dirty: take.number(1) == 1,
        };
    }
}

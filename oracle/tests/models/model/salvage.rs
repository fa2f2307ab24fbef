//! 02, "Eight": a damaged log salvaged.

use super::{checksum, directory, put, replay::Record, Fault, Model};

/// A record that is kept, with its id, or a stretch that is left out.
type Line = (u64, u64, Option<u64>);

impl Model {
    /// The command 39.
    pub fn salvage(&self, length: usize) -> Vec<u8> {
        let lines = match directory::keeps_the_rules(&self.directory) {
            true => self.kept_and_lost(),
            false => Vec::new(),
        };
        let mut kept = Vec::new();
        for (start, length, _) in lines.iter().filter(|line| line.2.is_some()) {
            kept.extend(&self.log[*start as usize..(*start + *length) as usize]);
        }
        let mut grounds = vec![(lines.len() > 64, 9), (kept.len() > length, 10)];
        if self.has(Fault::ShortBeforeLines) {
            grounds.reverse();
        }
        grounds.insert(0, (!directory::keeps_the_rules(&self.directory), 13));
        let refused = grounds.into_iter().find(|(holds, _)| *holds).map(|(_, number)| number);
        let mut answer = vec![refused.unwrap_or(0)];
        let told: &[Line] = if refused.is_none() { &lines } else { &[] };
        put(&mut answer, told.len() as u64, 2);
        for (start, length, id) in told {
            put(&mut answer, u64::from(id.is_some()), 1);
            [*start, *length, id.unwrap_or(0)].iter().for_each(|n| put(&mut answer, *n, 8));
        }
        let written: &[u8] = if refused.is_none() { &kept } else { &[] };
        put(&mut answer, written.len() as u64, 4);
        put(&mut answer, written.len() as u64, 4);
        answer.extend(written);
        let mut output = vec![0x5a; length];
        output[..written.len()].copy_from_slice(written);
        if answer[0] == 10 && self.has(Fault::SalvagesWhatFits) {
            output.copy_from_slice(&kept[..length]);
        }
        answer.extend(checksum(&output).to_le_bytes());
        answer
    }

    fn kept_and_lost(&self) -> Vec<Line> {
        let mut lines: Vec<Line> = Vec::new();
        let mut at = 0;
        let mut last_id = None;
        let end = self.log.len() as u64;
        while at < end {
            let mut record = Record::default();
            let mut read = self.read_record(at, None, &mut record);
            if read == Err(8) && self.has(Fault::SalvagesUnchecked) && record.fault_at > at {
                record.behind = record.fault_at + 5;
                read = Ok(());
            }
            let falls = last_id.is_some_and(|last| record.id <= last);
            if read.is_ok() && !(falls && self.has(Fault::IdsMustRise)) {
                lines.push((at, record.behind - at, Some(record.id)));
                at = record.behind;
                last_id = Some(record.id);
                continue;
            }
            let passed = match self.has(Fault::GoesOnBehindWhatWasRead) {
                true => (record.fault_at - at).max(1),
                false => 1,
            };
            match lines.last_mut() {
                Some((_, length, None)) if !self.has(Fault::StretchesByteByByte) => {
                    *length += passed;
                }
                _ => lines.push((at, passed, None)),
            }
            at += passed;
        }
        let last_is_lost = lines.last().is_some_and(|line| line.2.is_none());
        if last_is_lost && self.has(Fault::ForgetsTheLastStretch) {
            lines.pop();
        }
        lines
    }
}

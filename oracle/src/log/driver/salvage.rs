//! SALVAGE, document 02's request Eight: the whole records of a damaged log, found from the left by the
//! Rust's reader, and the stretches between them.

use super::{reading::whole_record, writing::put_output, Driver};
use crate::protocol::{number, tag, Fields};

/// "At most 64 lines".
const MOST_LINES: usize = 64;

#[derive(Debug, PartialEq)]
struct Line {
    position: usize,
    length: usize,
    /// The id of a record that is kept; none of a stretch that is left out.
    kept: Option<u64>,
}

impl Driver {
    pub fn salvage(&mut self, fields: &mut Fields) -> Vec<u8> {
        let output_length = fields.u32() as usize;
        let (number, lines) = match self.lines_for(output_length) {
            Ok(lines) => (number::DONE, lines),
            Err(number) => (number, Vec::new()),
        };
        let mut answer = vec![number];
        answer.extend((lines.len() as u16).to_le_bytes());
        for line in &lines {
            answer.push(line.kept.is_some().into());
            let numbers = [line.position as u64, line.length as u64, line.kept.unwrap_or(0)];
            answer.extend(numbers.into_iter().flat_map(u64::to_le_bytes));
        }
        let kept = self.kept_bytes(&lines);
        answer.extend((kept.len() as u32).to_le_bytes());
        put_output(&mut answer, output_length, &kept);
        answer
    }

    /// 13; "more gives 9, a short output 10, 9 first".
    fn lines_for(&mut self, output_length: usize) -> Result<Vec<Line>, u8> {
        if !self.directory.keeps_the_rules() {
            return Err(number::RULE_BROKEN);
        }
        let lines = self.lines();
        if lines.len() > MOST_LINES {
            return Err(number::NO_ROOM);
        }
        if self.kept_bytes(&lines).len() > output_length {
            return Err(number::OUTPUT_TOO_SHORT);
        }
        Ok(lines)
    }

    /// "from the left, each position where a whole record acceptable under the directory begins, with
    /// any id; after one is found it continues behind it". What lies between is left out: "none
    /// empty and no two adjoining".
    fn lines(&mut self) -> Vec<Line> {
        let mut lines: Vec<Line> = Vec::new();
        let (mut at, mut lost_from) = (0, 0);
        let end = self.log_file.bytes().len();
        while at < end {
            let Some((length, id)) = self.record_at(at) else {
                at += 1;
                continue;
            };
            lines.extend(lost(lost_from, at));
            lines.push(Line { position: at, length, kept: Some(id) });
            at += length;
            lost_from = at;
        }
        lines.extend(lost(lost_from, end));
        lines
    }

    /// The length and id of the whole record that begins there, if one does.
    fn record_at(&mut self, at: usize) -> Option<(usize, u64)> {
        // No other tag begins a record; the reader isn't asked, which would take long.
        if self.log_file.bytes()[at] != tag::BEGIN {
            return None;
        }
        let reader = whole_record(&mut self.log_file, &self.directory, at as u64, None).ok()?;
        Some((reader.read_bytes() as usize, reader.record_id()))
    }

    fn kept_bytes(&self, lines: &[Line]) -> Vec<u8> {
        let kept = lines.iter().filter(|line| line.kept.is_some());
        let log = self.log_file.bytes();
        kept.flat_map(|line| &log[line.position..line.position + line.length]).copied().collect()
    }
}

fn lost(from: usize, to: usize) -> Option<Line> {
    (from < to).then(|| Line { position: from, length: to - from, kept: None })
}

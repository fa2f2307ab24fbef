//! Lines of names and values, as text or as objects of JSON.

use std::{
    fmt::{self, Display},
    io::{self, Write},
};

/// What a line says of a thing.
pub enum Value<'a> {
    Number(u64),
    /// One of a few, without quotation marks.
    Word(&'static str),
    Sum(u32),
    /// Bit n for slot n.
    Slots(u64),
    Bytes(&'a [u8]),
}

/// Prints a line. Bytes are left out where they aren't wanted.
pub fn print(fields: &[(&str, Value<'_>)], is_json: bool, has_bytes: bool, out: &mut impl Write) -> io::Result<()> {
    let is_shown = |value: &Value| !matches!(value, Value::Bytes(bytes) if bytes.is_empty() || !has_bytes);
    for (place, (name, value)) in fields.iter().filter(|(_, value)| is_shown(value)).enumerate() {
        let is_first = place == 0;
        match (is_json, *name) {
            (true, _) => write!(out, "{}\"{name}\":{}", if is_first { '{' } else { ',' }, Json(value))?,
            // What they are is seen.
            (false, "at") => write!(out, "{}", Text(value))?,
            (false, "action") => write!(out, " {}", Text(value))?,
            (false, "words") => write!(out, " ({})", Text(value))?,
            (false, _) => write!(out, "{}{name} {}", if is_first { "" } else { " " }, Text(value))?,
        }
    }
    writeln!(out, "{}", if is_json { "}" } else { "" })
}

struct Text<'a>(&'a Value<'a>);

impl Display for Text<'_> {
    fn fmt(&self, f: &mut fmt::Formatter<'_>) -> fmt::Result {
        match self.0 {
            Value::Number(number) => write!(f, "{number}"),
            Value::Word(word) => f.write_str(word),
            Value::Sum(sum) => write!(f, "{sum:08x}"),
            Value::Slots(0) => f.write_str("none"),
            Value::Slots(mask) => write!(f, "{}", runs_of(*mask)),
            Value::Bytes(bytes) => bytes.iter().try_for_each(|byte| write!(f, "{byte:02x}")),
        }
    }
}

struct Json<'a>(&'a Value<'a>);

impl Display for Json<'_> {
    fn fmt(&self, f: &mut fmt::Formatter<'_>) -> fmt::Result {
        match self.0 {
            Value::Number(_) => write!(f, "{}", Text(self.0)),
            Value::Word(_) | Value::Sum(_) | Value::Bytes(_) => write!(f, "\"{}\"", Text(self.0)),
            Value::Slots(mask) => {
                let slots: Vec<String> =
                    (0..64).filter(|slot| mask >> slot & 1 == 1).map(|slot| slot.to_string()).collect();
                write!(f, "[{}]", slots.join(","))
            }
        }
    }
}

/// The slots of a mask, those in a row as the first and the last: `0-2,5`.
fn runs_of(mask: u64) -> String {
    let is_set = |slot: u32| slot < 64 && mask >> slot & 1 == 1;
    let starts = (0..64).filter(|slot| is_set(*slot) && (*slot == 0 || !is_set(slot - 1)));
    let run_from = |start: u32| {
        let end = (start..64).take_while(|slot| is_set(*slot)).last().unwrap_or(start);
        if start == end {
            start.to_string()
        } else {
            format!("{start}-{end}")
        }
    };
    starts.map(run_from).collect::<Vec<_>>().join(",")
}

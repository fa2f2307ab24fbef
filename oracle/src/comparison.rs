//! The answers of the Rust and of the port to a script, line by line.

mod tally;

pub use self::tally::Tally;
use crate::{
    demanded::{ByRule, Demanded},
    listed::Listed,
    log::driver::Driver,
    part::Part,
    protocol::{from_hex, number, op, to_hex, Script, Stepped, NOT_DRIVEN},
};
use std::io;

/// The first command that the two sides answer differently.
pub struct Difference {
    pub at: usize,
    pub why: String,
}

/// The answers to a script that starts from nothing.
pub struct Answers {
    pub rust: Vec<Vec<u8>>,
    pub demanded: Vec<ByRule>,
}

impl Answers {
    pub fn to(script: &Script) -> io::Result<Answers> {
        let (mut driver, mut by_rule) = (Driver::new()?, Demanded::new()?);
        let rust = script.iter().map(|command| driver.answer(command)).collect();
        let demanded = script.iter().map(|command| by_rule.by_rule(command)).collect();
        Ok(Answers { rust, demanded })
    }
}

/// Holds the port's lines, as written, against the answers.
pub fn compare(
    script: &Script,
    answers: &Answers,
    port: &[String],
    tally: &mut Tally,
) -> Result<(), Difference> {
    // After a listed difference the two sides' states of that part are apart.
    let mut apart = [false; Part::ALL.len()];
    for (at, command) in script.iter().enumerate() {
        let differs = |why| Difference { at, why };
        let (rust, demanded) = (&answers.rust[at], &answers.demanded[at]);
        let no_line = || differs("the port wrote no line for it".into());
        let line = port.get(at).ok_or_else(no_line)?;
        for part in Part::ALL {
            apart[part as usize] &= !part.brings_together(command, &demanded.answer);
        }
        let (called, touched) = (Part::called_by(command), Part::touched_by(command));
        let go_apart = if touched.iter().any(|part| apart[*part as usize]) {
            same("01 wants", &demanded.answer, line).map_err(differs)?;
            tally.count_behind(called);
            called.is_some()
        } else if let (Some(listed), Some(part)) = (demanded.listed, called) {
            as_listed(listed, rust, &demanded.answer, line).map_err(differs)?;
            tally.count_listed(part, listed, &demanded.answer);
            true
        } else {
            same("the Rust", rust, line).map_err(differs)?;
            tally.count_same(command, rust);
            false
        };
        touched.iter().for_each(|part| apart[*part as usize] |= go_apart);
    }
    no_further_lines(script, port)
}

/// Holds the lines of a port that takes each directory as a lent slice against its lines by value. The
/// first line is the answer to LENT, which no line by value stands beside.
pub fn compare_forms(by_value: &[String], lent: &[String]) -> Result<(), Difference> {
    let Some((switched, lent)) = lent.split_first() else {
        return Err(Difference { at: 0, why: "the port wrote no line for LENT".into() });
    };
    same("LENT is answered", &[number::DONE], switched).map_err(|why| Difference { at: 0, why })?;
    let none = String::new();
    for at in 0..by_value.len().max(lent.len()) {
        let (by_value, lent) = (by_value.get(at).unwrap_or(&none), lent.get(at).unwrap_or(&none));
        if by_value != lent {
            let why = format!(
                "by value: {}\nover a lent slice: {}",
                shown_line(by_value),
                shown_line(lent)
            );
            return Err(Difference { at, why });
        }
    }
    Ok(())
}

fn no_further_lines(script: &Script, port: &[String]) -> Result<(), Difference> {
    if port.len() <= script.len() {
        return Ok(());
    }
    let why = format!("the port wrote {} lines beyond it", port.len() - script.len());
    Err(Difference { at: script.len() - 1, why })
}

fn same(whose: &str, answer: &[u8], port: &str) -> Result<(), String> {
    if to_hex(answer) == port {
        return Ok(());
    }
    Err(format!("{whose}: {}\nthe port: {}", shown(answer), shown_line(port)))
}

fn as_listed(listed: Listed, rust: &[u8], demanded: &[u8], port: &str) -> Result<(), String> {
    let name = listed.name();
    if listed.fits_the_rust(rust) {
        return same("01 wants", demanded, port)
            .map_err(|why| format!("listed: {name}\nthe Rust: {}\n{why}", shown(rust)));
    }
    Err(format!("listed: {name}, but the Rust doesn't answer so: {}", shown(rust)))
}

fn shown(answer: &[u8]) -> String {
    match Stepped::from_answer(answer) {
        Some(stepped) => format!("{} = {stepped:?}", to_hex(answer)),
        None => to_hex(answer),
    }
}

fn shown_line(line: &str) -> String {
    if line == to_hex(&[NOT_DRIVEN]) {
        return format!("{line}, it doesn't speak this command yet");
    }
    from_hex(line).map_or_else(|| format!("{line:?}, which isn't hex"), |answer| shown(&answer))
}

/// Commands by which the port's reader and its replay take the records that the Rust writes of a
/// script's lists, one at each look at a list. The Rust goes in hash order, so they aren't the same
/// in every run.
pub fn walks_through_records(script: &Script) -> io::Result<Script> {
    let mut driver = Driver::new()?;
    let mut walks = Script::new();
    for command in script.iter().filter(|command| bears_on_the_list(command)) {
        driver.answer(command);
        if command[0] == op::LIST_SUM && driver.list_keeps_the_rules() {
            let record = driver.written_record();
            walks.extend(driver.walk_through(&record));
            walks.extend(driver.replay_of(&record));
        }
    }
    Ok(walks)
}

fn bears_on_the_list(command: &[u8]) -> bool {
    match command[0] {
        op::DIR | op::NEWLIST | op::BEGIN | op::FORGE_LIST | op::FORGE_DROP | op::LIST_SUM => true,
        op::WRITE | op::SIZE => false,
        _ => Part::called_by(command) == Some(Part::Lists),
    }
}

/// The commands that lead to a difference: the last DIR and LOG before its chain of calls, and all
/// from that chain's start on. A life is a chain as a whole.
pub fn leading_to(script: &Script, at: usize) -> Script {
    let Some(part) = Part::touched_by(&script[at]).first() else {
        return vec![script[at].clone()];
    };
    let start_of = |part: &Part| script[..=at].iter().rposition(|row| part.starts_with(row));
    let life = start_of(&Part::Lives).filter(|start| {
        script[*start..=at].iter().any(|command| Part::called_by(command) == Some(Part::Lives))
    });
    let chain = life.or(start_of(part)).unwrap_or(0);
    let last = |opcode| script[..chain].iter().rposition(|command| command[0] == opcode);
    let mut places: Vec<usize> = [last(op::DIR), last(op::LOG)].into_iter().flatten().collect();
    places.sort();
    places.extend(chain..=at);
    places.into_iter().map(|place| script[place].clone()).collect()
}

//! sample SEED SCRIPT ANSWERS [PART]: writes a short script of all forms, or of one part's, and its
//! answers as document 01 demands them: the Rust's, and by rule where a listed difference applies.

use oracle::{demanded::Demanded, generator::Generator, part::Part, protocol::lines_of};
use std::{error::Error, fs};

fn main() -> Result<(), Box<dyn Error>> {
    let words: Vec<String> = std::env::args().collect();
    let [_, seed, script_path, answers_path, part @ ..] = &words[..] else {
        return Err("usage: sample SEED SCRIPT ANSWERS [PART]".into());
    };
    let parts = Part::named(part.first().map(String::as_str)).ok_or("there is no such part")?;
    let script = Generator::sample(seed.parse()?, &parts);
    let mut demanded = Demanded::new()?;
    let answers: Vec<Vec<u8>> = script.iter().map(|command| demanded.answer(command)).collect();
    fs::write(script_path, lines_of(&script))?;
    fs::write(answers_path, lines_of(&answers))?;
    Ok(())
}

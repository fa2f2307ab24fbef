//! compare PORT SEED COUNT [PART]: runs random scripts of all parts, or of one, through the Rust and
//! through the program PORT until COUNT answers are compared, and prints the first difference, or
//! what agreed. PORT takes each script twice, with its directories by value and as lent slices.

use oracle::{
    comparison::{
        compare, compare_forms, leading_to, walks_through_records, Answers, Difference, Tally,
    },
    generator::Generator,
    part::Part,
    protocol::{lent, lines_of, to_hex, Script},
    scratch::Scratch,
};
use std::{
    error::Error,
    fs::{self, File},
    io,
    path::Path,
    process::{Child, Command, ExitCode},
};

fn main() -> Result<ExitCode, Box<dyn Error>> {
    let words: Vec<String> = std::env::args().collect();
    let [_, port, seed, count, part @ ..] = &words[..] else {
        return Err("usage: compare PORT SEED COUNT [PART]".into());
    };
    let parts = Part::named(part.first().map(String::as_str)).ok_or("there is no such part")?;
    let count: u64 = count.parse()?;
    let mut generator = Generator::new(seed.parse()?, &parts);
    let mut tally = Tally::default();
    while tally.calls(&parts) < count {
        let batch = generator.batch();
        let walks = walks_through_records(&batch)?;
        tally.count_records_of_the_rust(&walks);
        for script in [batch, walks].into_iter().filter(|script| !script.is_empty()) {
            let (answers, by_value, lent_lines) = run_both(&script, Path::new(port))?;
            let compared = compare(&script, &answers, &by_value, &mut tally)
                .map_err(|difference| (difference, Script::new()))
                .and_then(|()| {
                    let forms = compare_forms(&by_value, &lent_lines);
                    forms.map_err(|difference| (difference, vec![lent(true)]))
                });
            if let Err((difference, before)) = compared {
                println!("seed {seed}: {} answers agree, then a difference", tally.calls(&parts));
                show(before, &script, &difference)?;
                return Ok(ExitCode::FAILURE);
            }
            tally.count_forms(&script);
        }
    }
    print!("seed {seed}\n{tally}");
    Ok(ExitCode::SUCCESS)
}

/// The answers due, the port's lines by value, and those over lent slices.
fn run_both(script: &Script, port: &Path) -> io::Result<(Answers, Vec<String>, Vec<String>)> {
    let by_value = Run::start(script, port)?;
    let lent = Run::start(&[&[lent(true)][..], script].concat(), port)?;
    let answers = Answers::to(script)?;
    Ok((answers, by_value.lines(port)?, lent.lines(port)?))
}

/// The port is a process of its own. It reads from and writes to files, so that neither side waits
/// for the other.
struct Run {
    folder: Scratch,
    running: Child,
}

impl Run {
    fn start(script: &Script, port: &Path) -> io::Result<Run> {
        let folder = Scratch::new()?;
        let commands = folder.path().join("commands");
        fs::write(&commands, lines_of(script))?;
        let running = Command::new(port)
            .stdin(File::open(&commands)?)
            .stdout(File::create(folder.path().join("lines"))?)
            .spawn()
            .map_err(|error| io::Error::other(format!("{}: {error}", port.display())))?;
        Ok(Run { folder, running })
    }

    fn lines(mut self, port: &Path) -> io::Result<Vec<String>> {
        let ended = self.running.wait()?;
        if !ended.success() {
            eprintln!("{}: {ended}", port.display());
        }
        let written = fs::read(self.folder.path().join("lines"))?;
        Ok(String::from_utf8_lossy(&written).lines().map(str::to_string).collect())
    }
}

/// Prints a difference, and keeps the commands that lead to it, behind those that come before, as a
/// script.
fn show(before: Script, script: &Script, difference: &Difference) -> io::Result<()> {
    let leading = [before, leading_to(script, difference.at)].concat();
    for command in &leading {
        println!("  {}", shortened(&to_hex(command)));
    }
    println!("{}", difference.why);
    let kept = std::env::current_exe()?.with_file_name("difference");
    fs::write(&kept, lines_of(&leading))?;
    println!("These commands are kept in {}", kept.display());
    Ok(())
}

fn shortened(line: &str) -> String {
    const MOST: usize = 400;
    match line.get(..MOST) {
        Some(front) => format!("{front}.. ({} digits)", line.len()),
        None => line.to_string(),
    }
}

//! driver: reads commands of the run protocol, one a line, and answers each as the Rust does.
//! driver demanded: the same, but listed differences are answered as document 01 demands.

use oracle::{
    demanded::Demanded,
    log::driver::Driver,
    protocol::{from_hex, to_hex},
};
use std::io::{self, BufRead, BufWriter, Write};

fn main() -> io::Result<()> {
    let demanded = std::env::args().nth(1).is_some_and(|word| word == "demanded");
    if demanded {
        let mut side = Demanded::new()?;
        answer_all(|command| side.answer(command))
    } else {
        let mut side = Driver::new()?;
        answer_all(|command| side.answer(command))
    }
}

fn answer_all(mut answer: impl FnMut(&[u8]) -> Vec<u8>) -> io::Result<()> {
    let mut out = BufWriter::new(io::stdout().lock());
    for line in io::stdin().lock().lines() {
        let command = from_hex(&line?).expect("a line of hex");
        writeln!(out, "{}", to_hex(&answer(&command)))?;
    }
    out.flush()
}

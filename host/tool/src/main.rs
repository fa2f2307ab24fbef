//! `hongsathep`: a directory, its image and its log files, at a terminal. A thin program: what a log holds, and what it
//! does to an image, is said by the proved calls of the crate; here are arguments, files and words. docs/TOOL.md.
#![deny(unsafe_code)]

mod arguments;
mod check;
mod dump;
mod failure;
mod info;
mod inputs;
mod lines;
mod logs;
mod outcome;
mod place;
mod recover;
mod salvage;

use arguments::Command;
use failure::Failure;
use std::{env, io, io::Write, process::ExitCode};

fn main() -> ExitCode {
    let command = match arguments::read(env::args_os()) {
        Ok(command) => command,
        Err(said) => return said,
    };
    let mut out = io::stdout().lock();
    let done = run(&command, &mut out).and_then(|status| {
        out.flush()?;
        Ok(status)
    });
    match done {
        Ok(status) => ExitCode::from(status),
        Err(failure) => failure.tell(),
    }
}

/// The exit status: 0, or the number of the answer that a log ended with.
fn run(command: &Command, out: &mut impl Write) -> Result<u8, Failure> {
    match command {
        Command::Recover(asked) => recover::recover(asked, out),
        Command::Dump(asked) => dump::dump(asked, out),
        Command::Check(asked) => check::check(asked, out),
        Command::Salvage(asked) => salvage::salvage(asked, out),
        Command::Info(directory) => info::info(directory, out),
    }
}

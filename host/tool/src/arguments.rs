//! The command line.

use crate::failure::USAGE;
use clap::{value_parser, Arg, ArgAction, ArgMatches, Command as Clap};
use std::{ffi::OsString, path::PathBuf, process::ExitCode};

/// What is asked for.
pub enum Command {
    Recover(Recover),
    Dump(Dump),
    Check(Check),
    Salvage(Salvage),
    Info(PathBuf),
}

pub struct Recover {
    pub directory: PathBuf,
    pub image: PathBuf,
    pub logs: Vec<PathBuf>,
    pub first: Option<u64>,
    pub from: Option<u64>,
    pub is_new: bool,
    pub is_dry: bool,
}

pub struct Dump {
    pub directory: PathBuf,
    pub log: PathBuf,
    pub from: u64,
    pub has_bytes: bool,
    pub is_json: bool,
}

pub struct Check {
    pub directory: PathBuf,
    /// Standard input if none.
    pub log: Option<PathBuf>,
    pub first: Option<u64>,
}

pub struct Salvage {
    pub directory: PathBuf,
    pub log: PathBuf,
    pub out: PathBuf,
}

const STATUS: &str =
    "Exit status: 0 when the log ended cleanly, else the answer's number (docs/TOOL.md lists them); 64 \
                      and up for usage and files.";

/// What is asked for, or the exit status of a command line that asks for help or can't be understood.
pub fn read(words: impl IntoIterator<Item = OsString>) -> Result<Command, ExitCode> {
    let matches = tool().try_get_matches_from(words).map_err(|error| {
        // Where not even this can be printed the status says it.
        let _ = error.print();
        if error.use_stderr() {
            ExitCode::from(USAGE)
        } else {
            ExitCode::SUCCESS
        }
    })?;
    match matches.subcommand() {
        Some(("recover", given)) => Ok(Command::Recover(recover_of(given))),
        Some(("dump", given)) => Ok(Command::Dump(dump_of(given))),
        Some(("check", given)) => Ok(Command::Check(check_of(given))),
        Some(("salvage", given)) => Ok(Command::Salvage(salvage_of(given))),
        Some(("info", given)) => Ok(Command::Info(path_in(given, "directory"))),
        _ => Err(ExitCode::from(USAGE)),
    }
}

fn tool() -> Clap {
    Clap::new("hongsathep")
        .version(env!("CARGO_PKG_VERSION"))
        .about("The write-ahead log of parity-db: recover, read, check and salvage its files")
        .after_help(STATUS)
        .subcommand_required(true)
        .arg_required_else_help(true)
        .subcommand(recover())
        .subcommand(dump())
        .subcommand(check())
        .subcommand(salvage())
        .subcommand(info())
}

fn path(name: &'static str, shown: &'static str, help: &'static str) -> Arg {
    Arg::new(name).value_name(shown).value_parser(value_parser!(PathBuf)).required(true).help(help)
}

fn directory() -> Arg {
    path("directory", "DIRECTORY", "The text that describes the tables, a line each")
}

fn number(name: &'static str, shown: &'static str, help: &'static str) -> Arg {
    Arg::new(name).long(name).value_name(shown).value_parser(value_parser!(u64)).help(help)
}

fn flag(name: &'static str, help: &'static str) -> Arg {
    Arg::new(name).long(name).action(ArgAction::SetTrue).help(help)
}

fn command(name: &'static str, about: &'static str, example: &str) -> Clap {
    Clap::new(name).about(about).after_help(format!("Example:\n  {example}\n\n{STATUS}"))
}

fn recover() -> Clap {
    let about =
        "Replays log files onto an image. The new image is written beside the old one and put in its place when \
                 it is whole";
    command("recover", about, "hongsathep recover --new units.directory units.image logs/")
        .arg(directory())
        .arg(path("image", "IMAGE", "The tables' bytes; IMAGE.new is where the new ones are written"))
        .arg(
            path("log", "LOG", "Log files, replayed in the order of their first ids; or a folder of them")
                .num_args(1..),
        )
        .arg(flag("new", "Begin an image of zeros where there is none"))
        .arg(flag("dry-run", "Tell what would be done, and write nothing"))
        .arg(number("from", "POSITION", "Begin at this byte of the log, which must be one file"))
        .arg(number("first", "ID", "The id that the first record must have, in place of the one that stands there"))
}

fn dump() -> Clap {
    let about = "Prints a log: a line an action, a line a record, and where and why it ends";
    command("dump", about, "hongsathep dump --bytes units.directory logs/log0")
        .arg(directory())
        .arg(path("log", "LOG", "The log file"))
        .arg(flag("bytes", "Print the actions' bytes too, in hexadecimal"))
        .arg(flag("json", "Print each line as an object of JSON"))
        .arg(number("from", "POSITION", "Begin at this byte, where a record must begin"))
}

fn check() -> Clap {
    let about = "Reads a log to its end, applies nothing, and tells the answer, the position and the count of a run";
    command("check", about, "hongsathep check units.directory < /dev/sdcard")
        .arg(directory())
        .arg(path("log", "LOG", "The log file; standard input if it isn't given").required(false))
        .arg(number("first", "ID", "The id that the first record must have, in place of the one that stands there"))
}

fn salvage() -> Clap {
    let about =
        "Copies the whole records of a damaged log to a new file, whatever their ids, and lists them and what is lost";
    let help = "Example:\n  hongsathep salvage units.directory logs/log0 whole\n\nExit status: 0 when the records are copied, 9 if there \
                are more than 64 records and stretches; 64 and up for usage and files.";
    Clap::new("salvage")
        .about(about)
        .after_help(help)
        .arg(directory())
        .arg(path("log", "LOG", "The damaged log file, which is only read"))
        .arg(path("out", "OUT", "The file for the records, which must not be there yet"))
}

fn info() -> Clap {
    let about = "Prints the tables of a directory, their places in the image, and its length";
    Clap::new("info")
        .about(about)
        .after_help("Example:\n  hongsathep info units.directory\n\nExit status: 0, or 13 for a directory at fault; 64 and up for usage and files.")
        .arg(directory())
}

fn path_in(given: &ArgMatches, name: &str) -> PathBuf {
    given.get_one::<PathBuf>(name).cloned().unwrap_or_default()
}

fn number_in(given: &ArgMatches, name: &str) -> Option<u64> {
    given.get_one::<u64>(name).copied()
}

fn recover_of(given: &ArgMatches) -> Recover {
    Recover {
        directory: path_in(given, "directory"),
        image: path_in(given, "image"),
        logs: given.get_many::<PathBuf>("log").into_iter().flatten().cloned().collect(),
        first: number_in(given, "first"),
        from: number_in(given, "from"),
        is_new: given.get_flag("new"),
        is_dry: given.get_flag("dry-run"),
    }
}

fn dump_of(given: &ArgMatches) -> Dump {
    Dump {
        directory: path_in(given, "directory"),
        log: path_in(given, "log"),
        from: number_in(given, "from").unwrap_or_default(),
        has_bytes: given.get_flag("bytes"),
        is_json: given.get_flag("json"),
    }
}

fn check_of(given: &ArgMatches) -> Check {
    Check {
        directory: path_in(given, "directory"),
        log: given.get_one::<PathBuf>("log").cloned(),
        first: number_in(given, "first"),
    }
}

fn salvage_of(given: &ArgMatches) -> Salvage {
    Salvage { directory: path_in(given, "directory"), log: path_in(given, "log"), out: path_in(given, "out") }
}

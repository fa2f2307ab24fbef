//! Any bytes, any words: an exit status of those that are listed, words, and never a panic.

use crate::{
    running::{command, files, folder, log, run, Said},
    sample::Random,
};
use std::{
    fs::{self, File},
    process::Stdio,
};

/// A run ends with a status of its own, and a failure has words.
fn is_sound(said: &Said) {
    let status = said.status.expect("no signal");
    let listed = (0..=14).contains(&status) || [64, 65, 66, 73, 74, 75].contains(&status);
    assert!(listed && !said.err.contains("panicked"), "{said:?}");
    assert!(status == 0 || !said.err.is_empty() || said.out.contains("\"answer\":"), "{said:?}");
}

/// Bytes that look like a log here and there.
fn bytes(random: &mut Random) -> Vec<u8> {
    let mut bytes = log((0..random.below(3)).map(|id| id + 1));
    for _ in 0..random.below(4) {
        if !bytes.is_empty() {
            let place = random.below(bytes.len() as u64) as usize;
            bytes[place] = random.below(9) as u8;
        }
    }
    let behind = random.below(200) as usize;
    bytes.extend(random.bytes(behind).iter().map(|byte| byte % 9));
    bytes
}

fn text(random: &mut Random) -> Vec<u8> {
    let words =
        ["index", "value", "refcount", "3", "7", "0", "64", "20", "#", "\n", "\n", " ", "-1", "4097", "\0", "é"];
    let mut text = Vec::new();
    for _ in 0..random.below(30) {
        text.extend(words[random.below(words.len() as u64) as usize].bytes());
        text.push(b' ');
    }
    text
}

#[test]
fn any_bytes() {
    let scratch = folder();
    let mut random = Random(21);
    let place = |name: &str| scratch.path().join(name);
    for round in 0..150 {
        fs::write(place("log"), bytes(&mut random)).unwrap();
        fs::write(place("image"), random.bytes(5440)).unwrap();
        if round % 3 == 0 {
            fs::write(place("text"), text(&mut random)).unwrap();
        }
        let directory = if round % 3 == 0 { "text" } else { "directory" };
        let names: Vec<String> = files(scratch.path()).into_keys().collect();
        is_sound(&run(scratch.path(), &["check", directory, "log"]));
        is_sound(&run(scratch.path(), &["dump", "--json", "--bytes", directory, "log"]));
        is_sound(&run(scratch.path(), &["recover", directory, "image", "log"]));
        is_sound(&run(scratch.path(), &["info", directory]));
        is_sound(&run(scratch.path(), &["salvage", directory, "log", "out"]));
        let _ = fs::remove_file(place("out"));
        assert_eq!(files(scratch.path()).into_keys().collect::<Vec<_>>(), names);
    }
}

#[test]
fn any_words() {
    let scratch = folder();
    let mut random = Random(64);
    fs::write(scratch.path().join("log"), log(1..=2)).unwrap();
    let words = [
        "recover",
        "dump",
        "check",
        "salvage",
        "info",
        "directory",
        "log",
        "image",
        "",
        ".",
        "/",
        "-",
        "--",
        "--new",
        "--dry-run",
        "--from",
        "--first",
        "--json",
        "--bytes",
        "--help",
        "0",
        "1",
        "18446744073709551615",
        "log\n",
        "/dev/null",
        "log0",
    ];
    for _ in 0..250 {
        let count = random.below(7);
        let some: Vec<&str> = (0..count).map(|_| words[random.below(words.len() as u64) as usize]).collect();
        let said = run(scratch.path(), &some);
        is_sound(&said);
    }
    // Names that aren't text.
    use std::{ffi::OsStr, os::unix::ffi::OsStrExt, process::Command};
    let name = OsStr::from_bytes(b"\xff\xfe");
    let mut command = Command::new(crate::running::TOOL);
    let output = command.current_dir(scratch.path()).arg("info").arg(name).output().unwrap();
    assert_eq!(output.status.code(), Some(66));
}

/// Output that can't be written is told; a recovery is done first.
#[test]
fn full_outputs() {
    let scratch = folder();
    let place = |name: &str| scratch.path().join(name);
    fs::write(place("log"), log(1..=3)).unwrap();
    fs::write(place("cut"), &log(1..=3)[..20]).unwrap();
    let full = || File::options().write(true).open("/dev/full").unwrap();
    let run = |arguments: &[&str]| Said::of(command(scratch.path(), arguments).stdout(full()).output().unwrap());
    for arguments in [&["info", "directory"][..], &["check", "directory", "log"], &["dump", "directory", "log"]] {
        run(arguments).fails_with(74, "can't write to standard output: No space left");
    }
    run(&["recover", "--new", "directory", "image", "log"]).fails_with(74, "; the image is written");
    assert!(place("image").exists());
    run(&["salvage", "directory", "log", "out"]).fails_with(74, "; the records are written");
    assert!(fs::read(place("out")).unwrap() == log(1..=3));
    let mut check = command(scratch.path(), &["check", "directory", "cut"]);
    assert_eq!(check.stdout(Stdio::null()).stderr(full()).status().unwrap().code(), Some(2));
}

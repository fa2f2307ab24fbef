//! A process that appends and syncs is killed at random moments, and some of what was never synced is lost, as with the
//! machine's power: every record that was synced is there afterwards, whole, in order, and none but what was begun.

use crate::sample::{directory, Random, Scratch, INDEX, REF_COUNT, VALUE};
use hongsathep::{ChangeList, Image, Log};
use std::{
    env,
    fs::{self, OpenOptions},
    io::{self, Read, Write},
    path::Path,
    process::{Command, Stdio},
    thread::sleep,
    time::{Duration, Instant},
};

/// Whoever is run with this variable is the process to be killed: it names the folder, and seeds its choices.
const APPENDER: &str = "HONGSATHEP_APPENDER";
const ROUNDS: u64 = 200;

/// What the record of a number changes. Value 0 is the number itself; the rest follows from it.
fn fill(list: &mut ChangeList, number: u64) {
    let mut random = Random(number);
    let mut value = [0; 20];
    value[..8].copy_from_slice(&number.to_le_bytes());
    list.insert_value(VALUE, 0, &value).unwrap();
    for _ in 0..random.below(6) {
        let (index, value) = (1 + random.below(15), random.bytes(20));
        list.insert_value(VALUE, index, &value).unwrap();
    }
    // Long records, so that some are killed in the middle of a write.
    for slot in 0..random.below(65) {
        let (index, chunk) = (random.below(4), random.bytes(512));
        list.insert_index(INDEX, index, slot as u8, &chunk).unwrap();
    }
    if random.below(8) == 0 {
        list.insert_ref_count(REF_COUNT, random.below(3), random.below(64) as u8, &[number as u8; 1024]).unwrap();
    }
    if random.below(30) == 0 {
        list.drop_table(INDEX).unwrap();
    }
}

fn number_in(image: &Image) -> u64 {
    let value = image.value(VALUE, 0).unwrap();
    u64::from_le_bytes(value[..8].try_into().unwrap())
}

fn recovered(folder: &Path) -> (Log, Image) {
    let mut image = Image::load(&directory(), folder.join("image")).unwrap();
    let log = Log::open(folder, &directory()).unwrap().recover(&mut image).unwrap();
    (log, image)
}

/// The record of a number has this many bytes, whatever its id.
fn length_of(number: u64) -> u64 {
    let mut list = ChangeList::new(&directory(), 1);
    fill(&mut list, number);
    list.record_size() as u64
}

fn tell(what: &str, number: u64) {
    let mut out = io::stdout();
    out.write_all(format!("{what} {number}\n").as_bytes()).and_then(|()| out.flush()).unwrap();
}

/// Tells each record that is begun and ended, and each number up to which all are synced.
fn append_until_killed(folder: &Path, seed: u64) -> ! {
    let mut random = Random(seed);
    let (mut log, mut image) = recovered(folder);
    let mut number = number_in(&image);
    let is_fresh = random.below(2) == 0;
    loop {
        let checkpoints = is_fresh && log.next_id() == 1 || random.below(25) == 0;
        // What is flushed is synced: it is told before an image is made of it.
        if (checkpoints || random.below(12) == 0) && log.flush(0).unwrap().is_some() {
            tell("synced", number);
        }
        if checkpoints {
            log.checkpoint(&mut image, folder.join("image")).unwrap();
        }
        number += 1;
        let mut list = log.begin().unwrap();
        fill(&mut list, number);
        tell("begun", number);
        log.end(&list).unwrap();
        tell("ended", number);
        if random.below(3) > 0 {
            log.sync().unwrap();
            tell("synced", number);
        }
    }
}

/// Takes up to so many bytes from the end of the newest file.
fn lose(folder: &Path, bytes: u64, random: &mut Random) {
    let first_id = |path: &Path| Some(u64::from_le_bytes(fs::read(path).ok()?.get(1..9)?.try_into().ok()?));
    let files = fs::read_dir(folder).unwrap().map(|entry| entry.unwrap().path());
    let logs = files.filter(|path| path.file_name().is_some_and(|name| name.to_string_lossy().starts_with("log")));
    if let Some((_, newest)) = logs.filter_map(|path| Some((first_id(&path)?, path))).max() {
        let length = fs::metadata(&newest).unwrap().len();
        let file = OpenOptions::new().write(true).open(newest).unwrap();
        file.set_len(length - random.below(bytes.min(length) + 1)).unwrap();
    }
}

/// The last number that was told of a thing, in whole lines.
fn last_told(lines: &str, what: &str) -> Option<u64> {
    let whole = &lines[..lines.rfind('\n').map_or(0, |end| end + 1)];
    whole.lines().rev().find_map(|line| line.strip_prefix(what)?.trim().parse().ok())
}

#[test]
fn nothing_synced_is_lost() {
    if let Some(words) = env::var_os(APPENDER) {
        let words = words.into_string().unwrap();
        let (seed, folder) = words.split_once(' ').unwrap();
        append_until_killed(Path::new(folder), seed.parse().unwrap());
    }
    let scratch = Scratch::on_a_device();
    let mut random = Random(7);
    let mut model = Image::new(&directory());
    let (mut at, mut unsynced, mut cut, mut replayed) = (0, 0, 0, 0);
    let start = Instant::now();
    for round in 0..ROUNDS {
        let lines = run_and_kill(scratch.path(), round, Duration::from_micros(2_000 + random.below(60_000)));
        let synced = last_told(&lines, "synced").unwrap_or(at);
        let (begun, ended) = (last_told(&lines, "begun").unwrap_or(at), last_told(&lines, "ended").unwrap_or(at));
        if random.below(2) == 0 {
            lose(scratch.path(), (synced + 1..=ended).map(length_of).sum(), &mut random);
        }
        let (mut log, mut image) = recovered(scratch.path());
        let found = number_in(&image);
        assert!(synced <= found && found <= begun, "round {round}: {synced} synced, {begun} begun, {found} found");
        for number in at + 1..=found {
            let mut list = ChangeList::new(&directory(), number);
            fill(&mut list, number);
            model.replay(&list.record(), 0, number).unwrap();
        }
        assert!(image.bytes() == model.bytes(), "round {round}: the tables of {found} records differ");
        at = found;
        unsynced += u64::from(found > synced);
        cut += log.recovered().iter().filter(|file| file.cut > 0).count();
        replayed += log.recovered().iter().map(|file| file.count).sum::<u64>();
        if random.below(4) == 0 {
            log.checkpoint(&mut image, scratch.path().join("image")).unwrap();
        }
    }
    println!(
        "{ROUNDS} processes killed in {:.0} s: {at} records, none lost; {replayed} replayed, {cut} files with an unfinished \
         record, {unsynced} rounds with a record that was not synced yet",
        start.elapsed().as_secs_f64()
    );
    assert!(at > ROUNDS);
}

/// What the process said before it was killed.
fn run_and_kill(folder: &Path, seed: u64, after: Duration) -> String {
    let mut child = Command::new(env::current_exe().unwrap())
        .args(["--exact", "kill::nothing_synced_is_lost", "--nocapture"])
        .env(APPENDER, format!("{seed} {}", folder.display()))
        .stdout(Stdio::piped())
        .stderr(Stdio::null())
        .spawn()
        .unwrap();
    let mut out = child.stdout.take().unwrap();
    // The time counts from the first line on, so that a slow start isn't all that is killed.
    let mut first = [0];
    while out.read(&mut first).unwrap() == 1 && first != *b"b" {}
    sleep(after);
    child.kill().unwrap();
    child.wait().unwrap();
    let mut lines = String::from_utf8_lossy(&first).into_owned();
    out.read_to_string(&mut lines).unwrap();
    lines
}

/// A killed process leaves its lock to nobody.
#[test]
fn a_lock_goes_with_its_process() {
    let scratch = Scratch::new();
    run_and_kill(scratch.path(), 1, Duration::from_millis(20));
    drop(recovered(scratch.path()));
    assert!(fs::metadata(scratch.path().join("lock")).is_ok());
}

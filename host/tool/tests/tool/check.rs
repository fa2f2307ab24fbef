//! `check`: what a run over the same bytes says.

use crate::{
    running::{command, folder, log, long_record, run, run_on, Said, TOOL},
    sample::{directory, record},
};
use hongsathep::{Image, Ran};
use std::{
    ffi::CStr,
    fs::{self, File},
    io::{self, Read, Write},
    os::fd::{AsRawFd, FromRawFd},
    process::{Command, Stdio},
    thread,
};

/// That a check says what a run came to.
fn says(said: &Said, ran: &Ran) {
    let number = ran.answer.number();
    assert_eq!(said.status, Some(if number == 1 { 0 } else { number as i32 }), "{ran:?} {said:?}");
    let records = match ran.count {
        0 => "no records".to_string(),
        1 => "1 record, id 1".to_string(),
        count => format!("{count} records, ids 1 to {count}"),
    };
    assert!(said.out.contains(&records), "{ran:?} {said:?}");
    if number == 1 {
        assert!(said.out.contains(&format!("ends cleanly at byte {}", ran.position)) && said.err.is_empty());
    } else {
        let words = format!(": answer {number} ({}): the record at byte {} isn't", ran.answer.words(), ran.position);
        assert!(said.err.contains(&words), "{ran:?} {said:?}");
        assert_eq!(said.err.contains(&format!("the fault is at byte {}", ran.fault)), ran.fault != ran.position);
    }
}

/// From a file and from standard input alike.
fn agrees(bytes: &[u8]) {
    let scratch = folder();
    let ran = Image::new(&directory()).run(bytes, 0, 1);
    fs::write(scratch.path().join("log"), bytes).unwrap();
    says(&run(scratch.path(), &["check", "--first", "1", "directory", "log"]), &ran);
    says(&run_on(scratch.path(), &["check", "--first", "1", "directory"], bytes), &ran);
}

#[test]
fn good_cut_and_damaged() {
    let log = log(1..=3);
    agrees(&log);
    let step = log.len() / 120 + 1;
    for place in (0..log.len()).step_by(step).chain(0..12).chain(log.len() - 12..log.len()) {
        agrees(&log[..place]);
        let mut damaged = log.clone();
        damaged[place] ^= 4;
        agrees(&damaged);
    }
}

/// The first id is the one that stands there, unless it is given.
#[test]
fn first_ids() {
    let scratch = folder();
    fs::write(scratch.path().join("log"), log([8, 9])).unwrap();
    let said = run(scratch.path(), &["check", "directory", "log"]);
    assert_eq!((said.status, said.out.starts_with("log: 2 records, ids 8 to 9; ends cleanly")), (Some(0), true));
    let said = run(scratch.path(), &["check", "--first", "7", "directory", "log"]);
    said.fails_with(5, "the record at byte 0 isn't taken, id 7 is expected and 8 stands there");
    fs::write(scratch.path().join("log"), log([8, 10])).unwrap();
    let said = run(scratch.path(), &["check", "directory", "log"]);
    said.fails_with(5, "id 9 is expected and 10 stands there");
    fs::write(scratch.path().join("log"), log([u64::MAX])).unwrap();
    run(scratch.path(), &["check", "directory", "log"])
        .fails_with(12, "behind the last id no record may stand, at byte ");
    fs::write(scratch.path().join("log"), [1, 2, 3]).unwrap();
    let said = run(scratch.path(), &["check", "directory", "log"]);
    assert_eq!(said.out, "log: no records; ends cleanly at byte 0; the 3 bytes behind it are no record\n");
    fs::write(scratch.path().join("log"), []).unwrap();
    let said = run(scratch.path(), &["check", "directory", "log"]);
    assert_eq!((said.status, said.out.as_str()), (Some(0), "log: no records; ends cleanly at byte 0\n"));
}

#[test]
fn logs_that_cannot_be_read() {
    let scratch = folder();
    run(scratch.path(), &["check", "directory", "missing"]).fails_with(66, "missing: No such file");
    run(scratch.path(), &["check", "directory", "."]).fails_with(66, ".: Is a directory");
    run(scratch.path(), &["check", "directory", "/proc/self/mem"]).fails_with(66, "/proc/self/mem: ");
    assert_eq!(run(scratch.path(), &["check", "directory", "/dev/null"]).status, Some(0));
}

/// Two hundred megabytes in a room of sixty.
#[test]
fn memory_does_not_grow() {
    let scratch = folder();
    let mut child = Command::new("sh")
        .current_dir(scratch.path())
        .args(["-c", &format!("ulimit -v 60000; exec {TOOL} check directory")])
        .stdin(Stdio::piped())
        .stdout(Stdio::piped())
        .stderr(Stdio::piped())
        .spawn()
        .unwrap();
    let mut input = child.stdin.take().unwrap();
    let writer = thread::spawn(move || (1..=4000).map(long_record).try_for_each(|record| input.write_all(&record)));
    let said = Said::of(child.wait_with_output().unwrap());
    writer.join().unwrap().unwrap();
    let due =
        format!("standard input: 4000 records, ids 1 to 4000; ends cleanly at byte {}\n", 4000 * long_record(1).len());
    assert_eq!((said.status, said.out, said.err.as_str()), (Some(0), due, ""));
}

/// A record longer than what is taken in is said to be that.
#[test]
fn a_record_too_long() {
    let scratch = folder();
    let begin = &record(&directory(), 1)[..9];
    let value: Vec<u8> = [&[3, 7, 0][..], &[0; 8], &[9; 20]].concat();
    let mut child = command(scratch.path(), &["check", "directory"])
        .stdin(Stdio::piped())
        .stdout(Stdio::piped())
        .stderr(Stdio::piped())
        .spawn()
        .unwrap();
    let mut input = child.stdin.take().unwrap();
    let many = value.repeat(40_000);
    let writer = thread::spawn({
        let begin = begin.to_vec();
        move || {
            input.write_all(&begin).unwrap();
            while input.write_all(&many).is_ok() {}
        }
    });
    let said = Said::of(child.wait_with_output().unwrap());
    writer.join().unwrap();
    said.fails_with(65, "standard input: the record at byte 0 has more than 134217728 bytes");
}

/// Progress is shown where standard error is a terminal, and there alone: all other tests find standard error empty.
#[test]
fn progress_on_a_terminal() {
    let scratch = folder();
    fs::write(scratch.path().join("log"), log(1..=2000)).unwrap();
    let (mut terminal, end) = match terminal() {
        Ok(both) => both,
        Err(error) => return println!("no terminal can be made here: {error}"),
    };
    let mut check = command(scratch.path(), &["check", "directory", "log"]);
    let output = check.stdout(Stdio::piped()).stderr(end).spawn().unwrap().wait_with_output().unwrap();
    drop(check);
    let said = String::from_utf8(output.stdout).unwrap();
    assert!(said.starts_with("log: 2000 records, ids 1 to 2000; ends cleanly"), "{said}");
    let mut shown = vec![0; 65536];
    let length = terminal.read(&mut shown).unwrap();
    assert!(String::from_utf8_lossy(&shown[..length]).contains(" of "), "{shown:?}");
}

/// A terminal: what is written to it, and the end for a process.
fn terminal() -> io::Result<(File, File)> {
    let checked = |answer: i32| if answer < 0 { Err(io::Error::last_os_error()) } else { Ok(answer) };
    let mut name = [0u8; 64];
    let own = unsafe {
        let own = File::from_raw_fd(checked(libc::posix_openpt(libc::O_RDWR | libc::O_NOCTTY))?);
        checked(libc::grantpt(own.as_raw_fd()))?;
        checked(libc::unlockpt(own.as_raw_fd()))?;
        checked(-libc::ptsname_r(own.as_raw_fd(), name.as_mut_ptr().cast(), name.len()))?;
        own
    };
    let name = CStr::from_bytes_until_nul(&name).unwrap().to_str().unwrap();
    Ok((own, File::options().read(true).write(true).open(name)?))
}

//! `recover` killed at every moment leaves the old image or the new one, whole; `salvage` leaves its output whole, or none.

use crate::{
    running::{behind, command, folder, log, old_image, run},
    sample::Scratch,
};
use std::{
    fs, io, mem,
    os::unix::process::CommandExt,
    process::Stdio,
    ptr,
    thread::sleep,
    time::{Duration, Instant},
};

fn begin() -> (Scratch, Vec<u8>) {
    let (scratch, log) = (folder(), log(1..=3));
    fs::write(scratch.path().join("log"), &log).unwrap();
    fs::write(scratch.path().join("image"), old_image()).unwrap();
    (scratch, behind(&log, 1))
}

const RECOVER: [&str; 4] = ["recover", "directory", "image", "log"];
const SALVAGE: [&str; 4] = ["salvage", "directory", "log", "out"];

/// Runs the tool with a stop where each call of the system begins and one where it ends, and kills it where it is told
/// to. Whether it was killed.
fn traced(scratch: &Scratch, arguments: &[&str], mut is_last: impl FnMut(i32) -> bool) -> io::Result<bool> {
    let mut run = command(scratch.path(), arguments);
    run.stdout(Stdio::null()).stderr(Stdio::null());
    // Between fork and exec: the call is allowed there, and memory isn't touched.
    unsafe {
        run.pre_exec(|| match libc::ptrace(libc::PTRACE_TRACEME, 0, 0, 0) {
            0 => Ok(()),
            _ => Err(io::Error::last_os_error()),
        });
    }
    let mut child = run.spawn()?;
    let pid = child.id() as i32;
    let none = ptr::null_mut::<u8>();
    loop {
        // The first wait is for the stop at exec.
        let mut status = 0;
        unsafe { libc::waitpid(pid, &mut status, 0) };
        if libc::WIFEXITED(status) {
            assert_eq!(libc::WEXITSTATUS(status), 0);
            return Ok(false);
        }
        if is_last(pid) {
            break;
        }
        unsafe { libc::ptrace(libc::PTRACE_SYSCALL, pid, none, none) };
    }
    child.kill()?;
    child.wait()?;
    Ok(true)
}

/// The number of the call at which a process stands.
fn call_of(pid: i32) -> i64 {
    unsafe {
        let mut registers: libc::user_regs_struct = mem::zeroed();
        libc::ptrace(libc::PTRACE_GETREGS, pid, ptr::null_mut::<u8>(), &mut registers);
        registers.orig_rax as i64
    }
}

/// Kills a run at each of its stops in turn, and shows what it leaves; how many stops there are, none where the machine
/// doesn't let a process be stopped.
fn at_every_stop(scratch: &Scratch, arguments: &[&str], before: impl Fn(), mut left: impl FnMut(usize)) -> usize {
    for stops in 1.. {
        before();
        let mut stop = 0;
        let is_last = |_| {
            stop += 1;
            stop == stops
        };
        match traced(scratch, arguments, is_last) {
            Ok(true) => left(stops),
            Ok(false) => return stops - 1,
            Err(error) => {
                println!("no process can be stopped here: {error}");
                return 0;
            }
        }
    }
    0
}

/// Files change by calls of the system alone.
#[test]
fn recover_at_every_call() {
    let (scratch, new) = begin();
    let image = scratch.path().join("image");
    let (mut is_new, mut left) = (0, 0);
    let before = || fs::write(&image, old_image()).unwrap();
    let stops = at_every_stop(&scratch, &RECOVER, before, |stops| {
        let bytes = fs::read(&image).unwrap();
        assert!(bytes == old_image() || bytes == new, "killed at stop {stops}: {} bytes", bytes.len());
        is_new += usize::from(bytes == new);
        // The next run takes over what is left.
        if scratch.path().join("image.new").exists() {
            left += 1;
            assert_eq!(run(scratch.path(), &RECOVER).status, Some(0), "behind stop {stops}");
            assert!(fs::read(&image).unwrap() == new && !scratch.path().join("image.new").exists());
        }
    });
    println!(
        "recover killed at {stops} stops: the new image stood after {is_new} of them, image.new was left by {left}"
    );
    assert!(stops == 0 || is_new > 0 && left > 0 && is_new < stops);
}

#[test]
fn salvage_at_every_call() {
    let (scratch, _) = begin();
    let (out, log) = (scratch.path().join("out"), fs::read(scratch.path().join("log")).unwrap());
    let mut whole = 0;
    let before = || drop(fs::remove_file(&out));
    let stops = at_every_stop(&scratch, &SALVAGE, before, |stops| {
        if let Ok(bytes) = fs::read(&out) {
            assert!(bytes == log, "killed at stop {stops}: {} bytes", bytes.len());
            whole += 1;
        }
    });
    println!(
        "salvage killed at {stops} stops: its output was whole after {whole} of them, and not there after the others"
    );
    assert!(stops == 0 || whole > 0 && whole < stops);
}

/// The image is on its device before it is renamed, and the folder's names are behind that.
#[test]
fn file_and_folder_are_synced() {
    let (scratch, new) = begin();
    for (arguments, name) in [(RECOVER, "image"), (SALVAGE, "out")] {
        let mut calls = Vec::new();
        let noted = |pid| {
            calls.push(call_of(pid));
            false
        };
        match traced(&scratch, &arguments, noted) {
            Ok(_) => {}
            Err(error) => return println!("no process can be stopped here: {error}"),
        }
        // Each call stops twice.
        let told: Vec<i64> =
            calls.into_iter().filter(|call| [libc::SYS_fsync, libc::SYS_rename].contains(call)).collect();
        assert_eq!(told, [libc::SYS_fsync, libc::SYS_rename, libc::SYS_fsync].map(|call| [call, call]).concat());
        assert!(scratch.path().join(name).exists());
    }
    assert!(fs::read(scratch.path().join("image")).unwrap() == new);
}

/// Inside of calls too: a large image on a device.
#[test]
fn at_many_times() {
    let scratch = Scratch::on_a_device();
    let place = |name: &str| scratch.path().join(name);
    fs::write(place("directory"), "refcount 2 0 4096\nindex 3 0 4\nvalue 7 1 16 20\n").unwrap();
    fs::write(place("log"), log(1..=3)).unwrap();
    let old = vec![0x5a; 4096 * 1024 + 2048 + 320];
    fs::write(place("image"), &old).unwrap();
    let start = Instant::now();
    assert_eq!(run(scratch.path(), &RECOVER).status, Some(0));
    let whole = start.elapsed();
    let new = fs::read(place("image")).unwrap();
    let mut is_new = 0;
    for round in 0..100 {
        fs::write(place("image"), &old).unwrap();
        let mut child = command(scratch.path(), &RECOVER).stdout(Stdio::null()).stderr(Stdio::null()).spawn().unwrap();
        sleep(whole.mul_f64(f64::from(round) / 90.0).min(Duration::from_millis(100)));
        child.kill().unwrap();
        child.wait().unwrap();
        let bytes = fs::read(place("image")).unwrap();
        assert!(bytes == old || bytes == new, "round {round}: {} bytes", bytes.len());
        is_new += usize::from(bytes == new);
    }
    println!("killed 100 times within {} ms: the new image stood after {is_new}", whole.as_millis());
}

//! Two runs at once.

use crate::{
    running::{behind, command, files, log, old_image, once_free, Said},
    sample::{directory, Scratch},
};
use hongsathep::Replacement;
use std::{fs, process::Stdio};

/// On a device: a run takes a while there.
fn scratch() -> (Scratch, Vec<u8>) {
    let (scratch, log) = (Scratch::on_a_device(), log(1..=3));
    fs::write(scratch.path().join("directory"), directory().to_string()).unwrap();
    fs::write(scratch.path().join("log"), &log).unwrap();
    (scratch, log)
}

/// Each run either does it all or says that another is at work, and the image is the same.
#[test]
fn at_once() {
    let (scratch, log) = scratch();
    let mut done = 0;
    for _ in 0..60 {
        fs::write(scratch.path().join("image"), old_image()).unwrap();
        let begin = |_| {
            let mut run = command(scratch.path(), &["recover", "directory", "image", "log"]);
            run.stdout(Stdio::piped()).stderr(Stdio::piped()).spawn().unwrap()
        };
        let runs: Vec<_> = (0..3).map(begin).collect();
        let said: Vec<Said> = runs.into_iter().map(|run| Said::of(run.wait_with_output().unwrap())).collect();
        for said in &said {
            match said.status {
                Some(0) => done += 1,
                _ => said.fails_with(75, "image.new: another run is at work on it; nothing was written"),
            }
        }
        assert!(said.iter().any(|said| said.status == Some(0)), "{said:?}");
        let files = files(scratch.path());
        assert!(files["image"] == behind(&log, 1) && !files.contains_key("image.new"));
    }
    println!("180 runs, three at once: {done} did it, the others said that one was at work");
}

#[test]
fn while_another_writes() {
    let (scratch, log) = scratch();
    let image = scratch.path().join("image");
    fs::write(&image, old_image()).unwrap();
    let held = Replacement::begin(&image).unwrap();
    let recover = || Said::of(command(scratch.path(), &["recover", "directory", "image", "log"]).output().unwrap());
    recover().fails_with(75, "another run is at work on it");
    assert!(fs::read(&image).unwrap() == old_image());
    drop(held);
    assert_eq!(once_free(recover).status, Some(0));
    assert!(fs::read(&image).unwrap() == behind(&log, 1));
}

//! `info`.

use crate::running::{folder, run};
use std::fs;

#[test]
fn the_tables() {
    let scratch = folder();
    let said = run(scratch.path(), &["info", "directory"]);
    let lines = "\
kind      number  column  count  bytes each      from        to
index          3       0      4         512         0      2048
value          7       1     16          20      2048      2368
refcount       2       0      3        1024      2368      5440
image: 5440 bytes
";
    assert_eq!((said.status, said.out.as_str(), said.err.as_str()), (Some(0), lines, ""));
}

#[test]
fn no_tables_and_the_most() {
    let scratch = folder();
    fs::write(scratch.path().join("empty"), "# none\n").unwrap();
    assert_eq!(run(scratch.path(), &["info", "empty"]).out, "image: 0 bytes\n");
    let most: String = (0..16).map(|number| format!("refcount {number} 7 4096\n")).collect();
    fs::write(scratch.path().join("most"), most).unwrap();
    let said = run(scratch.path(), &["info", "most"]);
    assert!(said.out.ends_with(" 62914560  67108864\nimage: 67108864 bytes\n"), "{said:?}");
}

/// Every command reads the text in the same way.
#[test]
fn texts_at_fault() {
    let scratch = folder();
    let texts: [(&[u8], &str); 6] = [
        (b"index 3 0 64\n\nvalue 7 9 128 20", "text: line 3: the column isn't 0 to 7 (answer 13)"),
        (b"indx 3 0 64", "text: line 1: the kind isn't index, value or refcount (answer 13)"),
        (b"index 3 0 64\nindex 3 0 64", "text: line 2: a second table of this kind and number (answer 13)"),
        (b"index 3 0 99999999999999999999", "text: line 1: a number is too large (answer 13)"),
        (b"\xff\xfe\x00", "text: line 1: the kind isn't index, value or refcount (answer 13)"),
        (b"index 3 0 \xff", "text: line 1: a word isn't a decimal number (answer 13)"),
    ];
    for (text, words) in texts {
        fs::write(scratch.path().join("text"), text).unwrap();
        for arguments in
            [&["info", "text"][..], &["check", "text"], &["dump", "text", "log"], &["recover", "text", "image", "log"]]
        {
            run(scratch.path(), arguments).fails_with(13, words);
        }
    }
    fs::write(scratch.path().join("text"), b"index 3 0 64 # \xff\xfe caf\xe9\r\n").unwrap();
    assert_eq!(run(scratch.path(), &["info", "text"]).status, Some(0));
}

#[test]
fn texts_that_cannot_be_read() {
    let scratch = folder();
    run(scratch.path(), &["info", "missing"]).fails_with(66, "missing: No such file");
    run(scratch.path(), &["info", "."]).fails_with(66, ".: Is a directory");
    run(scratch.path(), &["info", "directory/x"]).fails_with(66, "directory/x: Not a directory");
    run(scratch.path(), &["info", "/proc/self/mem"]).fails_with(66, "/proc/self/mem: ");
    fs::write(scratch.path().join("long"), vec![b'#'; 65537]).unwrap();
    run(scratch.path(), &["info", "long"]).fails_with(65, "long: more than 65536 bytes");
    fs::write(scratch.path().join("long"), vec![b'#'; 65536]).unwrap();
    assert_eq!(run(scratch.path(), &["info", "long"]).status, Some(0));
}

/// Help is no failure, and has an example; what can't be understood is.
#[test]
fn the_command_line() {
    let scratch = folder();
    for name in ["recover", "dump", "check", "salvage", "info"] {
        let said = run(scratch.path(), &[name, "--help"]);
        assert_eq!((said.status, said.err.as_str()), (Some(0), ""));
        assert!(said.out.contains(&format!("Example:\n  hongsathep {name} ")), "{said:?}");
    }
    assert_eq!(run(scratch.path(), &["--help"]).status, Some(0));
    for arguments in [
        &[][..],
        &["recovr"],
        &["info"],
        &["recover", "directory", "image"],
        &["check", "directory", "log", "more"],
        &["recover", "--first", "-1", "directory", "image", "log"],
        &["recover", "--first", "18446744073709551616", "directory", "image", "log"],
        &["dump", "--from", "x", "directory", "log"],
        &["info", "--new", "directory"],
    ] {
        let said = run(scratch.path(), arguments);
        assert_eq!((said.status, said.out.as_str()), (Some(64), ""), "{arguments:?}");
        assert!(!said.err.is_empty());
    }
}

//! The fixed script of `compare` through this crate gives the lines that the port must print.

use crate::protocol::{to_hex, Session};
use std::fs;

fn from_hex(line: &str) -> Vec<u8> {
    let digits = |pair: &[u8]| u8::from_str_radix(std::str::from_utf8(pair).unwrap(), 16).unwrap();
    line.as_bytes().chunks(2).map(digits).collect()
}

#[test]
fn the_fixed_script_gives_the_same_lines() {
    let folder = concat!(env!("CARGO_MANIFEST_DIR"), "/../crates/compare/");
    let script = fs::read_to_string(format!("{folder}stdin")).unwrap();
    let lines = fs::read_to_string(format!("{folder}stdout")).unwrap();
    let mut session = Session::new();
    let mut count = 0;
    for (number, (command, line)) in script.lines().zip(lines.lines()).enumerate() {
        assert_eq!(to_hex(&session.answer(&from_hex(command))), line, "line {}: {command}", number + 1);
        count += 1;
    }
    assert_eq!((script.lines().count(), lines.lines().count()), (count, count));
    println!("{count} lines, {} of them by the crate's types as well", session.answered_by_types);
    assert!(2 * session.answered_by_types > count);
}

//! Every row of docs/DIFFERENCES.md: its commands, run through the Rust and by document 01's rules,
//! give the two answers that stand there.

use oracle::{
    demanded::Demanded,
    log::driver::Driver,
    protocol::{from_hex, to_hex},
};

const PAPER: &str = include_str!("../../docs/DIFFERENCES.md");

struct Row<'a> {
    number: &'a str,
    commands: Vec<Vec<u8>>,
    demanded: &'a str,
    rust: &'a str,
}

/// The rows of all tables: number, 01, the Rust, commands, answer by 01, answer of the Rust.
fn rows() -> Vec<Row<'static>> {
    PAPER
        .lines()
        .map(|line| line.split('|').map(str::trim).collect::<Vec<_>>())
        .filter_map(|cells| match cells[..] {
            ["", number, _, _, commands, demanded, rust, ""] if commands.contains('`') => {
                let commands = in_code(commands).map(|line| from_hex(line).unwrap()).collect();
                let answer = |cell| in_code(cell).next().unwrap();
                Some(Row { number, commands, demanded: answer(demanded), rust: answer(rust) })
            }
            _ => None,
        })
        .collect()
}

/// What stands between backticks.
fn in_code(cell: &str) -> impl Iterator<Item = &str> {
    cell.split('`').skip(1).step_by(2)
}

fn last_answer(commands: &[Vec<u8>], mut answer: impl FnMut(&[u8]) -> Vec<u8>) -> String {
    to_hex(&commands.iter().map(|command| answer(command)).last().unwrap())
}

#[test]
fn every_row_holds() {
    let rows = rows();
    assert!(rows.len() >= 55, "{} rows are found", rows.len());
    for row in rows {
        let mut driver = Driver::new().unwrap();
        let rust = last_answer(&row.commands, |command| driver.answer(command));
        assert_eq!(rust, row.rust, "row {}, the Rust", row.number);
        let mut demanded = Demanded::new().unwrap();
        let wanted = last_answer(&row.commands, |command| demanded.answer(command));
        assert_eq!(wanted, row.demanded, "row {}, document 01", row.number);
    }
}

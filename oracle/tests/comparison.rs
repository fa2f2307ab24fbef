//! The comparison lets listed differences pass, and nothing else.

use oracle::{
    comparison::{compare, compare_forms, leading_to, Answers, Tally},
    generator::Generator,
    part::Part,
    protocol::{from_hex, to_hex, Script},
};

struct Run {
    script: Script,
    answers: Answers,
    port: Vec<String>,
}

impl Run {
    /// A script, with the answers that document 01 demands as the port's.
    fn of(script: Script) -> Run {
        let answers = Answers::to(&script).unwrap();
        let port = answers.demanded.iter().map(|by_rule| to_hex(&by_rule.answer)).collect();
        Run { script, answers, port }
    }

    fn differs_at(&self) -> Option<usize> {
        let compared = compare(&self.script, &self.answers, &self.port, &mut Tally::default());
        compared.err().map(|difference| difference.at)
    }
}

fn script_of(lines: &[&str]) -> Script {
    lines.iter().map(|line| from_hex(line).unwrap()).collect()
}

/// A begin inside a record, then a step that goes on behind it in the Rust, then an opening.
fn begin_inside() -> Run {
    Run::of(script_of(&[
        "0100",
        "031700000001010000000000000001020000000000000004000000ff",
        "0b000000000000000000",
        "0c00",
        "0c00",
        "0b170000000000000000",
    ]))
}

#[test]
fn demanded_answers_agree() {
    assert_eq!(begin_inside().differs_at(), None);
    assert_eq!(Run::of(Generator::sample(1, &Part::ALL)).differs_at(), None);
}

#[test]
fn every_other_answer_is_a_difference() {
    for part in Part::ALL {
        let mut run = Run::of(Generator::sample(2, &[part]));
        // Each command would take long.
        for at in (0..run.script.len()).step_by(5) {
            let wrong = if run.port[at] == "05" { "06" } else { "05" };
            let right = std::mem::replace(&mut run.port[at], wrong.into());
            assert_eq!(run.differs_at(), Some(at));
            run.port[at] = right;
        }
    }
}

#[test]
fn the_rusts_own_answer_is_a_difference_where_one_is_listed() {
    let mut run = begin_inside();
    run.port[3] = to_hex(&run.answers.rust[3]);
    assert_eq!(run.differs_at(), Some(3));
}

#[test]
fn the_rust_must_differ_as_listed() {
    let mut run = begin_inside();
    run.answers.rust[3] = vec![4];
    assert_eq!(run.differs_at(), Some(3));
}

#[test]
fn behind_a_listed_difference_the_port_must_stay_where_the_rust_goes_on() {
    let mut run = begin_inside();
    assert_ne!(to_hex(&run.answers.rust[4]), run.port[4]);
    run.port[4] = to_hex(&run.answers.rust[4]);
    assert_eq!(run.differs_at(), Some(4));
}

/// Over a lent directory each line must be the one by value, behind the answer to LENT.
#[test]
fn another_line_over_a_lent_directory_is_a_difference() {
    let by_value = begin_inside().port;
    let lent = [&["00".to_string()], &by_value[..]].concat();
    let differs_at =
        |lent: &[String]| compare_forms(&by_value, lent).err().map(|difference| difference.at);
    assert_eq!(differs_at(&lent), None);
    for at in 0..by_value.len() {
        let mut other = lent.clone();
        other[at + 1] = "05".into();
        assert_eq!(differs_at(&other), Some(at));
    }
    assert_eq!(differs_at(&lent[..3]), Some(2));
    assert_eq!(differs_at(&[&lent[..], &["00".into()]].concat()), Some(by_value.len()));
    assert_eq!(differs_at(&["ff".into()]), Some(0));
    assert_eq!(differs_at(&[]), Some(0));
}

#[test]
fn missing_and_needless_lines_are_differences() {
    let mut run = begin_inside();
    run.port.push("00".into());
    assert_eq!(run.differs_at(), Some(5));
    run.port.truncate(3);
    assert_eq!(run.differs_at(), Some(3));
}

#[test]
fn what_leads_to_a_difference() {
    let script = begin_inside().script;
    assert_eq!(leading_to(&script, 4), script[..5]);
    assert_eq!(leading_to(&script, 5), [&script[..2], &script[5..]].concat());
    assert_eq!(leading_to(&script, 1), script[1..2]);
}

#[test]
fn what_leads_to_an_image() {
    let script = script_of(&["0300000000", "0100", "0200000000aa", "0f", "020000000000", "0f"]);
    assert_eq!(leading_to(&script, 5), [&script[..2], &script[4..]].concat());
}

/// File 0 in the read queue, its opening refused; then another state is forged.
fn front_refused() -> Run {
    let front_0 = "1f0000000000000000000000000000000000000100000000000000000000000100000000";
    Run::of(script_of(&[front_0, "030100000008", "15000000000000000001", "1c", front_0, "1c"]))
}

#[test]
fn a_moved_front_is_a_difference() {
    let mut run = front_refused();
    assert_eq!(run.differs_at(), None);
    assert_ne!(to_hex(&run.answers.rust[3]), run.port[3]);
    run.port[3] = to_hex(&run.answers.rust[3]);
    assert_eq!(run.differs_at(), Some(3));
}

#[test]
fn behind_a_forged_state_the_rust_is_held_against_again() {
    let mut run = front_refused();
    run.answers.demanded[5].answer = vec![0];
    assert_eq!(run.differs_at(), None);
    run.answers.rust[5] = vec![0];
    assert_eq!(run.differs_at(), Some(5));
}

#[test]
fn what_leads_to_a_state() {
    let script = front_refused().script;
    assert_eq!(leading_to(&script, 3), script[..4]);
    assert_eq!(leading_to(&script, 5), [&script[1..2], &script[4..]].concat());
}

/// "log07" alone: the Rust fails.
#[test]
fn a_name_that_only_the_rust_takes() {
    let open = "100100056c6f67303709000000010700000000000000";
    let mut run = Run::of(script_of(&[open, "1c"]));
    assert_eq!(run.differs_at(), None);
    assert_eq!(run.answers.rust[0], [0xfe]);
    run.port[0] = "fe".into();
    assert_eq!(run.differs_at(), Some(0));
}

/// The front's opening refused, then a record ended, its list begun anew behind an OPEN.
fn record_behind_a_moved_front() -> Run {
    let mut script = front_refused().script[..3].to_vec();
    script.extend(script_of(&["11", "120e000000", "1d", "23"]));
    script.extend(script_of(&["100000", "1d", "23", "050100000000000000", "11"]));
    Run::of(script)
}

#[test]
fn a_record_that_ends_behind_a_difference_is_held_against_01() {
    let mut run = record_behind_a_moved_front();
    assert_eq!(run.differs_at(), None);
    // BEGIN is as in the Rust; END, and the overlays and the list behind it, as in 01.
    for (at, held_against_the_rust) in
        [(3, true), (4, false), (5, false), (6, false), (8, true), (9, false), (11, true)]
    {
        let right = std::mem::replace(&mut run.answers.rust[at], vec![5]);
        assert_eq!(run.differs_at(), held_against_the_rust.then_some(at));
        run.answers.rust[at] = right;
        let right = std::mem::replace(&mut run.answers.demanded[at].answer, vec![5]);
        assert_eq!(run.differs_at(), (!held_against_the_rust).then_some(at));
        run.answers.demanded[at].answer = right;
    }
}

#[test]
fn what_leads_to_a_life() {
    let script = script_of(&["0100", "100000", "050100000000000000", "11", "23", "100000", "1d"]);
    assert_eq!(leading_to(&script, 4), script[..5]);
    assert_eq!(leading_to(&script, 6), [&script[..1], &script[5..]].concat());
}

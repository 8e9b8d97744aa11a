//! Answers and refusals in words, and the program itself.

mod common;

use common::{explain, frames, EXAMPLE, EXAMPLE_ANSWER};
use reference::sentence::{both, sheet};
use reference::{gen, report, write, Refusal};
use rulefile::answer;
use std::io::Write;
use std::process::{Command, Output, Stdio};

fn shown(rules: &str, answer: &str) -> String {
    answer::explain(rules.as_bytes(), answer.as_bytes()).unwrap_or_else(|why| panic!("{why}"))
}

fn wrong(rules: &str, answer: &str) -> String {
    answer::explain(rules.as_bytes(), answer.as_bytes()).expect_err("wrong")
}

#[test]
fn the_case_of_the_worked_example() {
    assert_eq!(report(EXAMPLE.as_bytes()), EXAMPLE_ANSWER.as_bytes());
    let expected = "case 9\n\nt0\n    c0\n    --\n     9\n\nINSERT INTO t0 (c0) VALUES (9);\n";
    assert_eq!(shown(EXAMPLE, EXAMPLE_ANSWER), expected);
}

#[test]
fn a_case_of_several_tables() {
    let rules = frames(&[
        "01 02 02 00 fffe fffe 0003 0003",
        "01 00 01 00 0000 0001",
        "01 01 01 00 8000 8000",
        "03 01 02 01 10 00ffff",
        "07 03 00",
    ]);
    let answer = "8000000000\n810002fffe0003fffe0003\n810100\n8102018000\n";
    assert_eq!(
        shown(&rules, answer),
        "case 0\n\n\
         t0\n    c0  c1\n    --  --\n    -2   3\n    -2   3\n\n\
         INSERT INTO t0 (c0, c1) VALUES (-2, 3);\n\
         INSERT INTO t0 (c0, c1) VALUES (-2, 3);\n\n\
         t1 (c0): no rows\n\n\
         t2\n        c0\n    ------\n    -32768\n\n\
         INSERT INTO t2 (c0) VALUES (-32768);\n"
    );
}

/// The worked example with a goal that has no sign.
fn spoilt() -> String {
    EXAMPLE.replace("070200", "0702")
}

/// What is said of it.
const SPOILT: &str = "    0702\n\
    Line 4: it is too short or too long, or has a token that may not stand where it stands \
    (refusal 4).\n\
    Ligne 4\u{a0}: elle est trop courte ou trop longue, ou contient un code qui ne peut pas se \
    trouver là où il est (refus 4).\n";

#[test]
fn no_case_and_refusals() {
    assert_eq!(shown(EXAMPLE, "82\n"), "no case\n");
    assert_eq!(shown(&spoilt(), "8f040004\n"), SPOILT);
    assert_eq!(
        rulefile::explain(spoilt().as_bytes()),
        Err(SPOILT.to_owned())
    );
    let empty = String::from_utf8(sheet(b"")).expect("text");
    assert_eq!(rulefile::explain(b""), Err(empty));
}

/// An answer may hold a refusal that no rule file meets.
#[test]
fn refusals_of_any_number() {
    for number in 0..=255 {
        for line in [0, 4, 65_535] {
            let answer = format!("8f{number:02x}{line:04x}\n");
            let offending = if line == 4 { "    070200\n" } else { "" };
            let expected = offending.to_owned() + &both(Refusal { number, line });
            assert_eq!(shown(EXAMPLE, &answer), expected);
        }
    }
}

#[test]
fn answers_that_are_none() {
    assert!(wrong(EXAMPLE, "80").contains("(line 1)"));
    assert!(wrong(EXAMPLE, "82\n82\n").contains("an answer is"));
    assert!(wrong(EXAMPLE, "8f01\n").contains("four bytes"));
    assert!(wrong(EXAMPLE, "8000\n").contains("five bytes"));
    assert!(wrong(EXAMPLE, "8000000009\n").contains("0 tables, the file 1"));
    assert!(wrong(EXAMPLE, "8000000009\n8101010009\n").contains("does not fit table t0"));
    assert!(wrong(EXAMPLE, "8000000009\n81000100\n").contains("does not fit table t0"));
    assert!(wrong("01\n", EXAMPLE_ANSWER).contains("not accepted\n    01\nLine 1: it is too short"));
}

/// The refusal of any damaged text shows its line; every answer of the reference is understood.
#[test]
fn random_answers() {
    for seed in 0..3_000 {
        let whole = write(&gen::file(seed));
        let damaged = gen::damage(&whole, seed);
        for rules in [whole, damaged] {
            let answered = answer::explain(&rules, &report(&rules));
            let answered = answered.unwrap_or_else(|why| panic!("seed {seed}: {why}"));
            if let Err(refusal) = rulefile::explain(&rules) {
                assert_eq!(refusal, answered, "seed {seed}");
                let sheet = String::from_utf8(sheet(&rules)).expect("text");
                assert!(refusal.ends_with(&sheet), "seed {seed}");
            }
        }
    }
}

/// A wrong line may hold any bytes and be long.
#[test]
fn wrong_lines_are_fit_to_print() {
    let refusal = rulefile::explain(b"01\x1b[2J\xff\n").expect_err("refused");
    assert!(refusal.starts_with("    01\u{fffd}[2J\u{fffd}\nLine 1: "));
    let refusal = rulefile::explain(&b"0".repeat(8000)).expect_err("refused");
    assert!(refusal.contains("0 ...\nLine 1: ") && refusal.len() < 500);
}

fn program(arguments: &[&str], input: &str) -> Output {
    let mut child = Command::new(env!("CARGO_BIN_EXE_rulefile"))
        .args(arguments)
        .stdin(Stdio::piped())
        .stdout(Stdio::piped())
        .stderr(Stdio::piped())
        .spawn()
        .expect("the program starts");
    // a program that only prints its usage may be gone before it reads
    let _ = child
        .stdin
        .take()
        .expect("a pipe")
        .write_all(input.as_bytes());
    child.wait_with_output().expect("the program ends")
}

#[test]
fn the_program() {
    let explained = program(&["explain"], EXAMPLE);
    assert_eq!(explained.stdout, explain(EXAMPLE).as_bytes());
    let assembled = program(&["assemble"], &explain(EXAMPLE));
    assert_eq!(assembled.stdout, EXAMPLE.as_bytes());
    assert!(explained.status.success() && assembled.status.success());
    let refused = program(&["explain"], "00\n");
    assert!(refused.stdout.starts_with(b"    00\nLine 1: its kind is "));
    let faulty = program(&["assemble"], "\nTABEL");
    assert!(faulty.stdout.is_empty() && faulty.stderr.starts_with(b"line 2: TABLE, "));
    let usage = program(&[], "");
    assert!(String::from_utf8_lossy(&usage.stderr).contains("proves nothing"));
    let failures = [refused, faulty, usage];
    assert!(failures.iter().all(|it| it.status.code() == Some(1)));
}

#[test]
fn the_program_on_an_answer() {
    let name = format!("rulefile-answer-{}", std::process::id());
    let path = std::env::temp_dir().join(name);
    std::fs::write(&path, EXAMPLE_ANSWER).expect("written");
    let file = path.to_str().expect("a path");
    let output = program(&["explain", "--answer", file], EXAMPLE);
    std::fs::remove_file(&path).expect("removed");
    assert_eq!(output.stdout, shown(EXAMPLE, EXAMPLE_ANSWER).as_bytes());
}

//! The proved program beside the reference: the same output for the same input.

mod program;
mod texts;

use program::{GENERATE, STACK};
use reference::{gen, report, write, Answer};
use std::collections::BTreeMap;
use std::time::Duration;
use texts::common::{self, text, EXAMPLE};
use texts::shown;

/// Texts compared, how many of them are files with exists, how many met each kind of answer, and
/// how many were left out.
#[derive(Default)]
struct Tally {
    texts: u64,
    exists: u64,
    met: BTreeMap<String, u64>,
    left_out: u64,
}

impl Tally {
    fn compare(&mut self, text: &[u8]) {
        if texts::is_long(text) {
            self.left_out += 1;
            return;
        }
        let found = GENERATE.answer(text);
        assert_eq!(shown(&found), shown(&report(text)), "{}", shown(text));
        self.texts += 1;
        self.exists += u64::from(texts::has_exists(text));
        *self.met.entry(kind(&found)).or_insert(0) += 1;
    }

    /// Shows what was met: every kind of answer, some of them often.
    fn finish(&self) {
        println!("{} texts, {} left out", self.texts, self.left_out);
        println!("{} files with exists", self.exists);
        assert!(self.exists >= 500);
        let refusals = (1..=10).map(|number| format!("8f by {number}"));
        for kind in ["80".to_owned(), "82".to_owned()]
            .into_iter()
            .chain(refusals)
        {
            let met = self.met.get(&kind).copied().unwrap_or(0);
            println!("{met:7} {kind}");
            assert!(met >= 20, "{kind}");
        }
    }
}

/// The kind of an answer: 80, 82, or 8f with its number.
fn kind(answer: &[u8]) -> String {
    let first = &String::from_utf8_lossy(answer)[..];
    match first.get(..4) {
        Some(head) if head.starts_with("8f") => {
            let number = u8::from_str_radix(&head[2..], 16).expect("a number");
            format!("8f by {number}")
        }
        _ => first[..2].to_owned(),
    }
}

#[test]
fn random_and_damaged_texts() {
    let mut tally = Tally::default();
    for text in texts::random_and_damaged(600) {
        tally.compare(&text);
    }
    assert!(tally.texts >= 5_000);
    tally.finish();
}

fn said(text: &[u8]) -> String {
    String::from_utf8(GENERATE.answer(text)).expect("digits")
}

/// "Input .. prints .."
#[test]
fn the_worked_example() {
    assert_eq!(said(EXAMPLE.as_bytes()), "8000000009\n8100010009\n");
    let negative = EXAMPLE.replace("070200", "070201");
    assert_eq!(said(negative.as_bytes()), "82\n");
}

/// Files with exists, made by hand with their first cases.
#[test]
fn files_with_exists() {
    for (text, answer) in common::exists::files() {
        let expected = match answer {
            Answer::Case(k) => format!("80{k:08x}\n"),
            Answer::NoCase => "82\n".to_owned(),
            Answer::Refused { number, line } => format!("8f{number:02x}{line:04x}\n"),
            Answer::Spent(next) => panic!("spent at {next}"),
        };
        let said = said(text.as_bytes());
        assert!(said.starts_with(&expected), "{text}{said}");
        assert_eq!(said.as_bytes(), report(text.as_bytes()), "{text}");
    }
}

/// "It searches from 0 to the end": the last of 2^24 candidates is a case, or none is.
#[test]
fn the_largest_search() {
    let table = "01 01 02 00 0000 0fff 0000 0fff";
    let view = |least| format!("03 01 00 01 13 {least} 02 010000 010001 010000");
    let last = text(&[table, &view("001ffe"), "07 01 00"]);
    assert_eq!(said(last.as_bytes()), "8000ffffff\n8100010fff0fff\n");
    let none = text(&[table, &view("001fff"), "07 01 00"]);
    assert_eq!(said(none.as_bytes()), "82\n");
}

/// The longest answer: fifteen tables of eight rows and four columns, with values of either sign.
#[test]
fn the_longest_answer() {
    let table = "01 08 04 00 ffff ffff 7fff 7fff 8000 8000 0000 0000";
    let mut frames = vec![table; 15];
    frames.extend(["03 01 00 01 10 010000", "07 0f 00"]);
    let rows = "ffff7fff80000000".repeat(8);
    let tables = (0..15).map(|number| format!("81{number:02x}08{rows}\n"));
    let expected = format!("8000000000\n{}", tables.collect::<String>());
    assert_eq!(said(text(&frames).as_bytes()), expected);
}

#[test]
fn a_table_without_rows() {
    let tables = ["01 00 02 00 0000 0001 0000 0001", "01 01 01 00 0003 0004"];
    let text = text(&[tables[0], tables[1], "03 01 01 01 10 010000", "07 02 00"]);
    assert_eq!(said(text.as_bytes()), "8000000000\n810000\n8101010003\n");
}

/// "The file has 1 to 8,192 bytes": the line after the goal is met at 8,192 bytes, and with one
/// more byte none is read.
#[test]
fn lengths_at_the_limit() {
    let mut text = texts::longest();
    assert_eq!(text.len(), 8_192);
    assert_eq!(said(&text), "8f030005\n");
    text.push(b'\n');
    assert_eq!(said(&text), "8f010000\n");
    assert_eq!(said(&[]), "8f010000\n");
    assert_eq!(said(b"\n"), "8f020001\n");
}

/// An input that is too long is not cut where an accepted file ends.
#[test]
fn accepted_file_with_more_behind_it() {
    for text in texts::too_long() {
        assert_eq!(said(&text), "8f010000\n", "{}", text.len());
    }
}

/// An input that arrives bit by bit is the same input.
#[test]
fn small_pieces() {
    let pause = Duration::from_millis(3);
    let mixed = (0..8).map(|seed| write(&gen::mixed_file(seed)));
    let damaged = (0..8).map(|seed| gen::damage(&write(&gen::file(seed)), seed));
    let example = [EXAMPLE.as_bytes().to_vec()].into_iter();
    for text in example.chain(mixed).chain(damaged) {
        let found = GENERATE.answer_in_pieces(&text, 7, pause);
        assert_eq!(found, GENERATE.answer(&text));
        assert_eq!(found, report(&text));
    }
    let mut text = texts::longest();
    let long = |text: &[u8]| GENERATE.answer_in_pieces(text, 700, pause);
    assert_eq!(long(&text), b"8f030005\n");
    text.push(b'\n');
    assert_eq!(long(&text), b"8f010000\n");
}

/// A read that fails is not taken for the end of an empty input.
#[test]
fn a_read_that_fails() {
    let (printed, said) = GENERATE.on_a_directory();
    assert_eq!(printed, b"");
    assert_eq!(said, "generate: the input cannot be read\n");
}

/// A write that fails is said.
#[test]
fn a_write_that_fails() {
    let said = GENERATE.onto_a_full_device();
    assert_eq!(said, "generate: the output cannot be written\n");
}

/// The files whose conditions and expressions nest the deepest.
#[test]
fn deepest_files() {
    for (name, text) in gen::deepest().into_iter().chain(gen::deepest_refused()) {
        let found = GENERATE.answer_within(STACK, &text);
        assert_eq!(shown(&found), shown(&report(&text)), "{name}");
    }
}

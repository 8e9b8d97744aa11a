//! Token 17 on texts made by hand, by the reader, by both searches, and by the plain evaluator.

mod common;

use common::exists::{files, views, with_view, ROWS};
use common::{accept, refuse, whole_look};
use reference::candidates::database;
use reference::eval::relations;
use reference::gen;
use reference::look::{plain_look, WORK};
use reference::{read, Answer};

#[test]
fn refusals_of_views() {
    assert!(views().count() >= 80);
    for (view, number) in views() {
        match number {
            0 => drop(accept(&with_view(view))),
            _ => refuse(&with_view(view), number, 3),
        }
    }
}

fn plain(text: &[u8]) -> Answer {
    let (mut work, mut instance) = (vec![0; WORK], vec![0; 512]);
    plain_look(text, 0, u64::MAX, &mut work, &mut instance)
}

#[test]
fn first_cases() {
    for (text, answer) in files() {
        assert_eq!(plain(text.as_bytes()), answer, "\n{text}");
        assert_eq!(whole_look(&text), answer, "\n{text}");
    }
}

#[test]
fn rows() {
    for (view, cells, expected) in ROWS {
        let file = accept(&with_view(view));
        let rows = relations(&file.syntax, &database(&file.syntax, cells));
        assert_eq!(rows[2], *expected, "{view}, {cells:?}");
    }
}

/// R is the row bound of the from list: count is 0 to R, and a sum has R times the ends.
#[test]
fn row_bounds() {
    let file = accept(&with_view(
        "04 01 00 00 02 17 01 1701 10 10 0700 000000 0701 010000",
    ));
    let ends = file.ranges[2].iter().map(|range| (range.lo, range.hi));
    assert_eq!(file.row_bounds, [2, 2, 2]);
    assert_eq!(ends.collect::<Vec<_>>(), [(0, 2), (0, 6)]);
}

/// The files whose conditions and expressions nest the deepest.
#[test]
fn deepest_files() {
    let mut six = 0;
    for (name, text) in gen::deepest() {
        let file = accept(&String::from_utf8_lossy(&text));
        let marks = gen::exists_marks(&file.syntax);
        six += u64::from(marks.contains("exists with six items open"));
        let answer = whole_look(&String::from_utf8_lossy(&text));
        assert_eq!(plain(&text), answer, "{name}");
    }
    assert!(six >= 20);
    for (name, text) in gen::deepest_refused() {
        let refusal = read(&text).map(|_| ()).expect_err(&name);
        assert_eq!((refusal.number, refusal.line), (4, 2), "{name}");
    }
}

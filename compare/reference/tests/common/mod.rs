//! Helpers shared by the tests.
#![allow(dead_code)]

pub mod exists;

use reference::look::WORK;
use reference::{look, read, Answer, File};

/// The worked example of "The program".
pub const EXAMPLE: &str = "010101000000000c\n\
    0301000112000008010000010000\n\
    0301010112000005010000010000\n\
    070200\n";

/// A text of frames, spaces left out, each line closed by LF.
pub fn text(frames: &[&str]) -> String {
    frames
        .iter()
        .map(|frame| frame.replace(' ', "") + "\n")
        .collect()
}

/// A view of all rows of table 0.
pub const VIEW: &str = "03 01 00 01 10 010000";

/// M3: values, and what they are in steps of ten.
pub const ROUNDED: [(i64, i64); 7] = [
    (14, 10),
    (15, 20),
    (-15, -20),
    (-14, -10),
    (5, 10),
    (-5, -10),
    (0, 0),
];

/// M3: a view of a value in steps of ten.
pub fn rounding(value: i64) -> String {
    let view = format!("03 01 00 01 10 05000a 00{:04x}", value as i16);
    text(&["01 01 01 00 0000 0000", &view, "07 01 00"])
}

/// M4: two rows and one, their union and both their intersections.
pub fn bags() -> String {
    text(&[
        "01 02 01 00 0005 0005",
        "01 01 01 00 0005 0005",
        VIEW,
        "03 01 01 01 10 010000",
        "05 02 03",
        "06 02 03",
        "06 03 02",
        "07 04 00",
    ])
}

/// M5: two rows, all of them selected.
pub fn where_true(goal: &str) -> String {
    text(&["01 02 01 00 0000 0003", VIEW, goal])
}

/// M6: a table without rows.
pub fn no_rows(goal: &str) -> String {
    text(&["01 00 01 00 0000 0003", VIEW, goal])
}

/// M7: two equal rows, by a key or by none.
pub fn equal_rows(key: &str) -> String {
    text(&[&format!("01 02 01 {key} 0004 0004"), VIEW, "07 01 00"])
}

/// M8: having 100 < sum, select sum.
pub fn having() -> String {
    text(&[
        "01 02 01 00 0032 0033",
        "04 01 00 00 01 10 12 000064 0701 010000 0701 010000",
        "07 01 00",
    ])
}

/// M9: groups of no rows.
pub fn no_members() -> String {
    text(&[
        "01 02 01 00 0000 0003",
        "04 01 00 00 01 1410 10 0700 010000",
        "07 01 00",
    ])
}

/// The accepted file of a text.
pub fn accept(text: &str) -> File {
    match read(text.as_bytes()) {
        Ok(file) => file,
        Err(refusal) => panic!("{refusal:?} for\n{text}"),
    }
}

/// Asserts a refusal with its line.
pub fn refuse(text: &str, number: u8, line: u16) {
    match read(text.as_bytes()) {
        Ok(_) => panic!("accepted, {number} at {line} expected, for\n{text}"),
        Err(refusal) => assert_eq!((refusal.number, refusal.line), (number, line), "\n{text}"),
    }
}

/// A look with fresh buffers.
pub fn fresh_look(text: &str, start: u64, count: u64) -> Answer {
    let mut work = vec![0; WORK];
    let mut instance = vec![0; 512];
    look(text.as_bytes(), start, count, &mut work, &mut instance)
}

/// A look over the whole file.
pub fn whole_look(text: &str) -> Answer {
    fresh_look(text, 0, u64::MAX)
}

//! The exported functions as C sees them: the number that each answer is, and null pointers.

use sakthveim::WORK;
use std::ptr;

#[path = "../../reference/tests/common/mod.rs"]
mod common;

use common::{text, EXAMPLE};

extern "C" {
    fn sakthveim_check(text: *const u8, text_length: usize) -> u32;
    fn sakthveim_look(
        text: *const u8,
        text_length: usize,
        start: u64,
        count: u64,
        work: *mut i32,
        work_length: usize,
        instance: *mut i16,
        instance_length: usize,
    ) -> u64;
}

/// A slice of any contents for C: null where it is empty.
fn pointer<T>(slice: &mut [T]) -> *mut T {
    if slice.is_empty() {
        return ptr::null_mut();
    }
    slice.as_mut_ptr()
}

fn check(text: &str) -> u32 {
    let text = &mut text.as_bytes().to_vec()[..];
    unsafe { sakthveim_check(pointer(text), text.len()) }
}

/// The number of a look, and whether a buffer has changed.
fn look(text: &str, start: u64, count: u64, work: usize, instance: usize) -> (u64, bool) {
    let text = &mut text.as_bytes().to_vec()[..];
    let (mut area, mut cells) = (vec![7; work], vec![-1; instance]);
    let answer = unsafe {
        sakthveim_look(
            pointer(text),
            text.len(),
            start,
            count,
            pointer(&mut area),
            work,
            pointer(&mut cells),
            instance,
        )
    };
    (answer, area != vec![7; work] || cells != vec![-1; instance])
}

/// "upper 8 bits": the answer; below them its value.
fn number(answer: u64, value: u64) -> u64 {
    answer << 56 | value
}

/// The same of a refusal.
fn refused(number: u64, line: u64) -> (u64, bool) {
    (self::number(0x8f, number << 16 | line), false)
}

#[test]
fn numbers_of_answers() {
    let negative = EXAMPLE.replace("070200", "070201");
    let spoilt = EXAMPLE.replace("070200", "070202");
    let changed = |number| (number, true);
    assert_eq!(look(EXAMPLE, 0, 9, WORK, 1), changed(number(0, 9)));
    assert_eq!(look(EXAMPLE, 0, 10, WORK, 1), changed(number(0x80, 9)));
    assert_eq!(look(&negative, 0, 13, WORK, 1), changed(number(0x82, 0)));
    assert_eq!(look(&spoilt, 0, 13, WORK, 1), refused(5, 4));
    assert_eq!(look(EXAMPLE, 14, 0, WORK, 1), refused(13, 0));
    assert_eq!(check(EXAMPLE), 0);
    assert_eq!(check(&spoilt), 5 << 16 | 4);
    // the last line of the longest text
    let lines = "01\n".repeat(8_190 / 3) + "0\n";
    assert_eq!(lines.len(), 8_192);
    assert_eq!(check(&lines), 2 << 16 | 2_731);
    assert_eq!(look(&lines, 0, 0, WORK, 0), refused(2, 2_731));
}

/// The largest number of candidates: the answer's value has room for every start.
#[test]
fn numbers_of_the_largest_file() {
    let file = |goal| {
        let table = "01 01 02 00 0000 0fff 0000 0fff";
        text(&[table, "03 01 00 01 1410 010000", goal])
    };
    let n = 1 << 24;
    let (none, all) = (file("07 01 00"), file("07 01 01"));
    assert_eq!(look(&none, n - 2, 1, WORK, 2).0, number(0, n - 1));
    assert_eq!(look(&none, n - 2, u64::MAX, WORK, 2).0, number(0x82, 0));
    assert_eq!(look(&none, n, u64::MAX, WORK, 2).0, number(0x82, 0));
    assert_eq!(look(&all, n - 1, u64::MAX, WORK, 2).0, number(0x80, n - 1));
    assert_eq!(look(&all, n + 1, 0, WORK, 2), refused(13, 0));
    assert_eq!(look(&all, u64::MAX, u64::MAX, WORK, 2), refused(13, 0));
}

/// "the pointer of an empty slice may be null": each of the three, and all at once.
#[test]
fn null_pointers() {
    assert_eq!(check(""), 1 << 16);
    assert_eq!(look("", 0, 1, WORK, 1), refused(1, 0));
    assert_eq!(look(EXAMPLE, 0, 1, 0, 1), refused(11, 0));
    assert_eq!(look(EXAMPLE, 0, 1, WORK, 0), refused(12, 0));
    assert_eq!(look("", 0, 1, WORK, 0), refused(1, 0));
    assert_eq!(look("", 0, 1, 0, 0), refused(11, 0));
    // M6: a table without rows has no cells, so that the look is accepted
    let none = text(&["01 00 01 00 0000 0003", common::VIEW, "07 01 00"]);
    assert_eq!(look(&none, 0, 1, WORK, 0), (number(0x82, 0), true));
}

//! Validity, negative goals and rows, on files worked out by hand.

mod common;

use common::{accept, text, whole_look};
use reference::candidates::{candidate, database};
use reference::cases::{is_negative, is_positive, is_valid};
use reference::eval::{relations, Rows};
use reference::look::is_case;
use reference::{Answer, File};

/// The rows of every relation for these cells.
fn rows(file: &File, cells: &[i16]) -> Vec<Rows> {
    relations(&file.syntax, &database(&file.syntax, cells))
}

fn valid(file: &File, cells: &[i16]) -> bool {
    is_valid(&file.syntax, &database(&file.syntax, cells))
}

fn case(file: &File, cells: &[i16]) -> bool {
    is_case(file, candidate(&file.syntax, cells))
}

#[test]
fn keys_of_two_columns() {
    let file = accept(&text(&[
        "01 02 03 05 0000 0001 0000 0001 0000 0001",
        "03 01 00 01 10 010000",
        "07 01 00",
    ]));
    // The key is columns 0 and 2.
    assert!(!valid(&file, &[0, 0, 1, 0, 1, 1]));
    assert!(valid(&file, &[0, 0, 1, 0, 0, 0]));
    assert!(valid(&file, &[0, 0, 1, 1, 0, 1]));
    assert!(!valid(&file, &[0, 0, 1, 2, 0, 1]));
}

#[test]
fn foreign_keys_agree_on_all_pairs() {
    let file = accept(&text(&[
        "01 02 02 03 0000 0003 0000 0003",
        "01 01 02 00 0000 0003 0000 0003",
        "02 01 00 02 00 01 01 00",
        "03 01 01 01 10 010000",
        "07 02 00",
    ]));
    // Child column 0 refers to parent column 1, and 1 to 0, within one parent row.
    assert!(valid(&file, &[0, 1, 2, 3, 1, 0]));
    assert!(valid(&file, &[0, 1, 2, 3, 3, 2]));
    assert!(!valid(&file, &[0, 1, 2, 3, 0, 1]));
    assert!(!valid(&file, &[0, 1, 2, 3, 1, 2]));
}

#[test]
fn a_row_may_be_its_own_parent() {
    let file = accept(&text(&[
        "01 02 02 01 0000 0002 0000 0002",
        "02 00 00 01 01 00",
        "03 01 00 01 10 010000",
        "07 01 00",
    ]));
    assert!(valid(&file, &[0, 0, 1, 1]));
    assert!(valid(&file, &[0, 1, 1, 0]));
    assert!(!valid(&file, &[0, 2, 1, 1]));
}

#[test]
fn tables_the_goal_does_not_read_still_count() {
    let text = text(&[
        "01 01 01 00 0000 0000",
        "01 02 01 01 0000 0001",
        "03 01 00 01 10 010000",
        "07 02 00",
    ]);
    // Candidate 0 has two equal keys in the table not read.
    assert_eq!(whole_look(&text), Answer::Case(1));
}

#[test]
fn children_without_parents() {
    let frames = [
        "01 00 01 01 0000 0000",
        "01 01 01 00 0000 0000",
        "02 01 00 01 00 00",
    ];
    let view = ["03 01 01 01 10 010000", "07 02 00"];
    let bound = text(&[frames[0], frames[1], frames[2], view[0], view[1]]);
    assert_eq!(whole_look(&bound), Answer::NoCase);
    let free = text(&[frames[0], frames[1], view[0], view[1]]);
    assert_eq!(whole_look(&free), Answer::Case(0));
}

/// One table of one row, and views with `a < 2` (1), `a < 4` (2), their union (3) and
/// intersection (4), the union of 3 and 4 (5) and the intersection of 3 and 4 (6).
fn nested_sets() -> File {
    accept(&text(&[
        "01 01 01 00 0000 0005",
        "03 01 00 01 12 010000 000002 010000",
        "03 01 00 01 12 010000 000004 010000",
        "05 01 02",
        "06 01 02",
        "05 03 04",
        "06 03 04",
        "07 06 01",
    ]))
}

#[test]
fn negative_sets_go_down_by_kind() {
    let file = nested_sets();
    // Negative are: 1 from 2 up, 2 from 4 up, 3 both, 4 either, 5 both, 6 either.
    for (value, negative) in [
        (1, [false, false, false, false, false, false]),
        (3, [true, false, false, true, false, true]),
        (5, [true, true, true, true, true, true]),
    ] {
        let rows = rows(&file, &[value]);
        for (at, expected) in negative.into_iter().enumerate() {
            let told = is_negative(&file.syntax, &rows, 1 + at);
            assert_eq!(told, expected, "value {value}, view {}", 1 + at);
        }
        assert_eq!(case(&file, &[value]), negative[5]);
    }
}

#[test]
fn positive_sets() {
    let file = nested_sets();
    for (value, positive) in [
        (1, [true, true, true, true, true, true]),
        (3, [false, true, true, false, true, false]),
        (5, [false; 6]),
    ] {
        let rows = rows(&file, &[value]);
        for (at, expected) in positive.into_iter().enumerate() {
            assert_eq!(is_positive(&rows, 1 + at), expected);
        }
    }
}

#[test]
fn negative_aggregates() {
    // Two rows (g, a); where a < 5, grouped by g, having 3 < sum a.
    let file = accept(&text(&[
        "01 02 02 00 0000 0001 0000 0009",
        "04 01 00 01 01 12 010001 000005 0000 12 000003 0701 010001 010000",
        "07 01 01",
    ]));
    // All kept, and every group above 3.
    assert!(!case(&file, &[0, 2, 0, 2]));
    assert!(!case(&file, &[0, 4, 1, 4]));
    // (w, not h)
    assert!(case(&file, &[0, 2, 1, 2]));
    // (not w, h): the group of the row that fails w has sum 9.
    assert!(case(&file, &[0, 4, 0, 9]));
    let file = accept(&text(&[
        "01 02 02 00 0000 0001 0000 0009",
        "04 01 00 01 01 12 010001 000005 0000 12 000063 0701 010001 010000",
        "07 01 01",
    ]));
    // (not w, not h) alone: no row has w.
    assert!(case(&file, &[0, 9, 1, 9]));
}

#[test]
fn negative_aggregate_without_members() {
    // No combination at all, as the view below keeps none: no group in any of the three views.
    let text = text(&[
        "01 02 01 00 0000 0003",
        "03 01 00 01 1410 010000",
        "04 01 01 00 01 10 1410 0700 000000",
        "07 02 01",
    ]);
    assert_eq!(whole_look(&text), Answer::NoCase);
    let positive = text.replace("070201", "070200");
    assert_eq!(whole_look(&positive), Answer::NoCase);
}

#[test]
fn lower_views_are_not_negated() {
    // View 1 keeps a above 2, view 2 keeps all of view 1 but 4; negative is a = 4 only.
    let text = text(&[
        "01 01 01 00 0000 0005",
        "03 01 00 01 12 000002 010000 010000",
        "03 01 01 01 14 11 010000 000004 010000",
        "07 02 01",
    ]);
    assert_eq!(whole_look(&text), Answer::Case(4));
}

#[test]
fn groups_come_by_first_member() {
    let file = accept(&text(&[
        "01 04 02 00 0003 0007 0001 0009",
        "04 01 00 01 05 10 0000 10 010000 0700 010001 0701 010001 0702 010001 0703 010001",
        "04 01 00 01 02 12 000002 010001 0000 12 000001 0700 000000 010000 0701 04 010000 010001",
        "07 01 00",
    ]));
    let rows = rows(&file, &[7, 2, 3, 9, 7, 5, 3, 1]);
    assert_eq!(rows[1], vec![[7, 2, 7, 2, 5], [3, 2, 10, 1, 9]]);
    // Kept are (3, 9) and (7, 5), each alone in its group.
    assert!(rows[2].is_empty());
}

#[test]
fn grouping_by_several_columns_and_none() {
    let file = accept(&text(&[
        "01 03 02 00 0000 0009 0000 0009",
        "04 01 00 02 03 10 0001 0000 10 010000 010001 0700 000000",
        "04 01 00 00 02 10 10 0700 000000 03 0703 010000 0702 010001",
        "07 01 00",
    ]));
    let rows = rows(&file, &[1, 2, 2, 1, 1, 2]);
    assert_eq!(rows[1], vec![[1, 2, 2], [2, 1, 1]]);
    assert_eq!(rows[2], vec![[3, 1]]);
}

#[test]
fn intersections_keep_the_earliest_of_the_left() {
    let file = accept(&text(&[
        "01 04 01 00 0000 0009",
        "01 03 01 00 0000 0009",
        "03 01 00 01 10 010000",
        "03 01 01 01 10 010000",
        "06 02 03",
        "06 03 02",
        "05 02 03",
        "07 04 00",
    ]));
    let rows = rows(&file, &[5, 3, 5, 5, 3, 5, 5]);
    assert_eq!(rows[4], vec![[5], [3], [5]]);
    assert_eq!(rows[5], vec![[3], [5], [5]]);
    assert_eq!(rows[6], vec![[5], [3], [5], [5], [3], [5], [5]]);
}

#[test]
fn expressions_of_every_token() {
    let file = accept(&text(&[
        "01 01 02 00 8000 7fff 0000 0000",
        "03 01 00 08 10 02 010000 000007 03 010000 000007 04 010000 00fffd 050003 010000 \
         06 12 010000 000000 000001 000002 06 15 10 1410 000001 000002 \
         06 16 10 1410 000001 000002 06 13 010000 010000 000001 000002",
        "07 01 00",
    ]));
    assert_eq!(rows(&file, &[5, 0])[1], vec![[12, -2, -15, 6, 2, 2, 1, 1]]);
    assert_eq!(rows(&file, &[-5, 0])[1], vec![[2, -12, 15, -6, 1, 2, 1, 1]]);
    assert_eq!(
        rows(&file, &[-32768, 0])[1][0][..4],
        [-32761, -32775, 98304, -32769]
    );
}

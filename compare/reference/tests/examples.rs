//! The worked example and M1 to M12.

mod common;

use common::{
    accept, bags, equal_rows, fresh_look, having, no_members, no_rows, refuse, rounding, text,
    where_true, whole_look, EXAMPLE, ROUNDED, VIEW,
};
use reference::candidates::candidate_database;
use reference::eval::{nearest, relations, Rows};
use reference::{report, Answer, File};

/// The rows of every relation of candidate k.
fn rows(file: &File, k: u64) -> Vec<Rows> {
    relations(&file.syntax, &candidate_database(&file.syntax, k))
}

#[test]
fn worked_example() {
    let output = report(EXAMPLE.as_bytes());
    assert_eq!(output, b"8000000009\n8100010009\n");
}

#[test]
fn reports_of_other_outcomes() {
    let no_case = EXAMPLE.replace("070200", "070201");
    assert_eq!(report(no_case.as_bytes()), b"82\n");
    assert_eq!(report(b""), b"8f010000\n");
    assert_eq!(report(b"01"), b"8f020001\n");
    let bad_sign = EXAMPLE.replace("070200", "070202");
    assert_eq!(report(bad_sign.as_bytes()), b"8f050004\n");
}

#[test]
fn report_of_several_tables() {
    let text = text(&[
        "01 02 02 00 fffe fffe 0003 0003",
        "01 00 01 00 0000 0001",
        "01 01 01 00 8000 8000",
        "03 01 02 01 10 00ffff",
        "07 03 00",
    ]);
    let expected = "8000000000\n810002fffe0003fffe0003\n810100\n8102018000\n";
    assert_eq!(report(text.as_bytes()), expected.as_bytes());
}

#[test]
fn m1_case_and_spent() {
    assert_eq!(fresh_look(EXAMPLE, 0, 9), Answer::Spent(9));
    assert_eq!(fresh_look(EXAMPLE, 0, 10), Answer::Case(9));
}

#[test]
fn m2_negative_goal_above_a_view() {
    let text = EXAMPLE.replace("070200", "070201");
    assert_eq!(whole_look(&text), Answer::NoCase);
}

#[test]
fn m3_rounding() {
    for (value, rounded) in ROUNDED {
        assert_eq!(nearest(10, value), rounded);
        let file = accept(&rounding(value));
        assert_eq!(rows(&file, 0)[1], vec![vec![rounded]]);
    }
}

#[test]
fn m4_bags() {
    let all = rows(&accept(&bags()), 0);
    assert_eq!(all[4], vec![vec![5]; 3]);
    assert_eq!(all[5], vec![vec![5]]);
    assert_eq!(all[6], vec![vec![5]]);
}

#[test]
fn m5_negative_of_where_true() {
    assert_eq!(whole_look(&where_true("07 01 01")), Answer::NoCase);
    assert_eq!(whole_look(&where_true("07 01 00")), Answer::Case(0));
}

#[test]
fn m6_no_rows() {
    for goal in ["07 01 00", "07 01 01"] {
        let text = no_rows(goal);
        assert_eq!(accept(&text).candidates, 1);
        assert_eq!(whole_look(&text), Answer::NoCase);
    }
}

#[test]
fn m7_equal_keys() {
    assert_eq!(whole_look(&equal_rows("01")), Answer::NoCase);
    assert_eq!(whole_look(&equal_rows("00")), Answer::Case(0));
}

#[test]
fn m8_having_on_the_group() {
    let text = having();
    let all = rows(&accept(&text), 1);
    assert_eq!(all[0], vec![vec![50], vec![51]]);
    assert_eq!(all[1], vec![vec![101]]);
    assert_eq!(whole_look(&text), Answer::Case(1));
}

#[test]
fn m9_no_group_without_members() {
    let text = no_members();
    let file = accept(&text);
    for k in 0..file.candidates {
        assert!(rows(&file, k)[1].is_empty());
    }
    assert_eq!(whole_look(&text), Answer::NoCase);
}

#[test]
fn m10_number_of_candidates() {
    let largest = text(&["01 01 02 00 0000 0fff 0000 0fff", VIEW, "07 01 00"]);
    assert_eq!(accept(&largest).candidates, 1 << 24);
    let larger = text(&["01 01 02 00 0000 0fff 0000 1000", VIEW, "07 01 00"]);
    refuse(&larger, 10, 0);
}

#[test]
fn m11_row_bounds() {
    let eight = "01 08 01 00 0000 0000";
    let two = "01 02 01 00 0000 0000";
    let small = text(&[eight, eight, two, "03 02 00 01 01 10 010000", "07 03 00"]);
    assert_eq!(accept(&small).row_bounds, [8, 8, 2, 64]);
    let large = text(&[eight, eight, two, "03 03 00 01 02 01 10 010000", "07 03 00"]);
    refuse(&large, 8, 4);
}

#[test]
fn m12_ranges() {
    let frames = [
        "03 01 00 01 10 02 04 010000 010000 04 010000 010000",
        "07 01 00",
    ];
    let inside = text(&["01 01 01 00 8001 7fff", frames[0], frames[1]]);
    assert_eq!(accept(&inside).ranges[1][0].hi, 2 * 32767 * 32767);
    let outside = text(&["01 01 01 00 8000 7fff", frames[0], frames[1]]);
    refuse(&outside, 9, 2);
}

#[test]
fn misreading_of_lower_views() {
    // 6 would pass if the second view were solved without the first.
    assert!(!reference::look::is_case(&accept(EXAMPLE), 6));
}

#[test]
fn row_order_of_views() {
    let file = accept(&text(&[
        "01 03 01 00 0000 0002",
        "01 02 01 00 0005 0006",
        "03 02 00 01 02 10 010000 010100",
        "04 01 02 01 02 10 0001 10 010001 0701 010000",
        "05 02 02",
        "07 02 00",
    ]));
    // Rows 1, 0, 2 and 6, 5.
    let k = reference::candidates::candidate(&file.syntax, &[1, 0, 2, 6, 5]);
    let all = rows(&file, k);
    let product = vec![[1, 6], [1, 5], [0, 6], [0, 5], [2, 6], [2, 5]];
    assert_eq!(all[2], product);
    assert_eq!(all[3], vec![[6, 3], [5, 3]]);
    assert_eq!(all[4], [product.clone(), product].concat());
}

//! Refusals 1 to 10 on texts made by hand, each with its line, and their order.

mod common;

use common::{accept, refuse, text, EXAMPLE, VIEW};

/// One row and two columns from 0 to 3, the first one the key.
const TABLE: &str = "01 01 02 01 0000 0003 0000 0003";
const GOAL: &str = "07 01 00";

/// A file with one view in line 2.
fn with_view(view: &str, number: u8) {
    refuse(&text(&[TABLE, view, GOAL]), number, 2);
}

#[test]
fn number_1() {
    refuse("", 1, 0);
    refuse(&"0\n".repeat(4096), 2, 1);
    refuse(&("0\n".repeat(4096) + "\n"), 1, 0);
}

#[test]
fn number_2() {
    refuse("\n", 2, 1);
    refuse(EXAMPLE.trim_end(), 2, 4);
    refuse(&(EXAMPLE.to_owned() + "\n"), 2, 5);
    refuse(&EXAMPLE.replace("0c\n", "0C\n"), 2, 1);
    refuse(&EXAMPLE.replace("0c\n", "0\n"), 2, 1);
    refuse(&EXAMPLE.replace('\n', "\r\n"), 2, 1);
    refuse(&EXAMPLE.replace("070200", "0702 00"), 2, 4);
    refuse(&EXAMPLE.replace("\n0702", "\n\n0702"), 2, 4);
    // A wrong line far below comes before an unknown kind above.
    refuse(&text(&["00", "00", "0g"]), 2, 3);
    refuse(&text(&[&"00".repeat(121)]), 2, 1);
    refuse(&text(&[&"00".repeat(120)]), 3, 1);
}

#[test]
fn number_3() {
    refuse(&text(&["00"]), 3, 1);
    refuse(&text(&["08"]), 3, 1);
    refuse(&text(&[TABLE, VIEW, TABLE, GOAL]), 3, 3);
    refuse(&text(&[TABLE, VIEW, "02 00 00 01 00 00", GOAL]), 3, 3);
    refuse(
        &text(&[TABLE, "02 00 00 01 00 00", TABLE, VIEW, GOAL]),
        3,
        3,
    );
    refuse(&text(&[TABLE, VIEW, GOAL, GOAL]), 3, 4);
    refuse(&text(&[TABLE, VIEW, GOAL, "07"]), 3, 4);
    refuse(&text(&[TABLE, VIEW, GOAL, "01"]), 3, 4);
    refuse(&text(&[TABLE, VIEW]), 3, 0);
    refuse(&text(&[TABLE]), 3, 0);
    // No goal comes before N.
    refuse(&text(&["01 08 01 00 8000 7fff"]), 3, 0);
}

#[test]
fn number_4() {
    for cut in [
        "01",
        "01 01",
        "01 01 02",
        "01 01 02 01",
        "01 01 02 01 00",
        "01 01 02 01 0000 0003 0000",
    ] {
        refuse(&text(&[cut]), 4, 1);
    }
    refuse(&text(&["01 01 02 01 0000 0003 0000 0003 00"]), 4, 1);
    for cut in [
        "03",
        "03 01",
        "03 01 00",
        "03 01 00 01",
        "03 01 00 01 10",
        "03 01 00 01 10 01",
        "03 01 00 01 10 0100",
    ] {
        with_view(cut, 4);
    }
    with_view("03 01 00 01 10 010000 00", 4);
    with_view("03 01 00 01 18 010000", 4);
    with_view("03 01 00 01 0f 010000", 4);
    with_view("03 01 00 01 00 010000", 4);
    with_view("03 01 00 01 10 08", 4);
    with_view("03 01 00 01 10 10", 4);
    with_view("03 01 00 01 11 010000 10 010000", 4);
    with_view("04 01 00 00 01 10 10 010000 00", 4);
    // Half a field is no field, also where its first byte is too large already.
    with_view("03 01 00 01 10 05 ff", 4);
    with_view("03 01 00 01 10 00 80", 4);
    refuse(&text(&["01 01 01 00 0000 80"]), 4, 1);
    refuse(&text(&["07"]), 4, 1);
    refuse(&text(&[TABLE, VIEW, "07 01"]), 4, 3);
    refuse(&text(&[TABLE, VIEW, "07 01 00 00"]), 4, 3);
    refuse(&text(&[TABLE, "02 00 00 01 00"]), 4, 2);
    refuse(&text(&[TABLE, "02 00 00 01 00 00 00"]), 4, 2);
}

#[test]
fn number_5() {
    refuse(&text(&["01 09"]), 5, 1);
    refuse(&text(&["01 08 00"]), 5, 1);
    refuse(&text(&["01 08 05"]), 5, 1);
    refuse(&text(&["01 08 02 04"]), 5, 1);
    refuse(&text(&["01 08 04 10"]), 5, 1);
    // lo > hi is met when hi has been read, before bytes missing further right.
    refuse(&text(&["01 01 02 00 0001 0000"]), 5, 1);
    refuse(&text(&["01 01 02 00 0000 ffff"]), 5, 1);
    for count in ["02 00 00 00", "02 00 00 05"] {
        refuse(&text(&[TABLE, count]), 5, 2);
    }
    with_view("03 00", 5);
    with_view("03 04", 5);
    with_view("03 01 00 00", 5);
    with_view("03 01 00 09", 5);
    with_view("04 01 00 05", 5);
    with_view("04 01 00 00 00", 5);
    with_view("04 01 00 00 09", 5);
    with_view("03 01 00 01 10 05 0000", 5);
    with_view("03 01 00 01 10 05 03e9", 5);
    with_view("03 01 00 01 10 07 04", 5);
    refuse(&text(&[TABLE, VIEW, "07 01 02"]), 5, 3);
}

#[test]
fn number_5_of_17ths() {
    let sixteen = vec![TABLE; 16];
    let mut frames = sixteen.clone();
    frames.push("07 00 00");
    refuse(&text(&frames), 6, 17);
    for surplus in ["01", "03", "04", "05", "06"] {
        let mut frames = sixteen.clone();
        frames.push(surplus);
        refuse(&text(&frames), 5, 17);
    }
    let key = "02 00 00 01 00 00";
    let mut frames = vec![TABLE];
    frames.extend(vec![key; 16]);
    frames.extend([VIEW, GOAL]);
    accept(&text(&frames));
    frames.insert(17, "02");
    refuse(&text(&frames), 5, 18);
    // Out of order comes before the 17th.
    let mut frames = vec![TABLE];
    frames.extend(vec![VIEW; 15]);
    frames.push("01");
    refuse(&text(&frames), 3, 17);
}

#[test]
fn number_6_at_a_byte() {
    for first in ["07 00", "03 01 00", "02 00", "05 00", "06 00"] {
        refuse(&text(&[first]), 6, 1);
    }
    refuse(&text(&[TABLE, "02 01"]), 6, 2);
    refuse(&text(&[TABLE, "02 00 01"]), 6, 2);
    refuse(&text(&[TABLE, "02 00 00 01 02"]), 6, 2);
    refuse(&text(&[TABLE, "02 00 00 01 00 02"]), 6, 2);
    with_view("03 01 01", 6);
    with_view("03 01 00 01 10 01 01", 6);
    with_view("03 01 00 01 10 01 00 02", 6);
    with_view("04 01 00 01 01 10 01", 6);
    with_view("04 01 00 01 01 10 00 02", 6);
    for set in ["05 00", "05 02", "05 03", "06 00", "05 01 00", "06 01 02"] {
        refuse(&text(&[TABLE, VIEW, set]), 6, 3);
    }
    refuse(&text(&[TABLE, VIEW, "07 00"]), 6, 3);
    refuse(&text(&[TABLE, VIEW, "07 02"]), 6, 3);
}

#[test]
fn number_6_of_whole_frames() {
    let both = "01 01 02 03 0000 0003 0000 0003";
    let none = "01 01 02 00 0000 0003 0000 0003";
    refuse(&text(&[TABLE, "02 00 00 01 00 01"]), 6, 2);
    refuse(&text(&[TABLE, "02 00 00 02 00 00 01 00"]), 6, 2);
    refuse(&text(&[TABLE, "02 00 00 02 00 00 01 01"]), 6, 2);
    refuse(&text(&[both, "02 00 00 01 00 00"]), 6, 2);
    refuse(&text(&[none, "02 00 00 01 00 00"]), 6, 2);
    // Pairing comes after a surplus byte and after bytes missing.
    refuse(&text(&[TABLE, "02 00 00 01 00 01 00"]), 4, 2);
    refuse(&text(&[TABLE, "02 00 00 02 00 01"]), 4, 2);
    // A child column may stand in two pairs, and pairs in any order.
    accept(&text(&[both, "02 00 00 02 01 01 01 00", VIEW, GOAL]));
    let two = "03 01 00 02 10 010000 010001";
    refuse(&text(&[TABLE, VIEW, two, "05 01 02"]), 6, 4);
    refuse(&text(&[TABLE, VIEW, two, "06 02 01"]), 6, 4);
    refuse(&text(&[TABLE, VIEW, two, "05 01 02 00"]), 4, 4);
}

#[test]
fn number_7() {
    with_view("03 01 00 01 10 0700 010000", 7);
    with_view("03 01 00 01 11 0700 010000 000000 010000", 7);
    with_view("04 01 00 00 01 11 0700 010000 000000 10 000000", 7);
    with_view("04 01 00 00 01 10 10 0701 0702 010000", 7);
    with_view(
        "04 01 00 00 01 10 10 0701 06 11 0700 010000 000000 010000 010000",
        7,
    );
    with_view("04 01 00 00 01 10 10 010000", 7);
    with_view("04 01 00 00 01 10 11 010000 000000 000000", 7);
    with_view("04 01 00 01 01 10 0000 10 010001", 7);
    accept(&text(&[TABLE, "04 01 00 01 01 10 0000 10 010000", GOAL]));
    accept(&text(&[
        TABLE,
        "04 01 00 00 01 10 10 06 12 0700 010000 000001 000000 000001",
        GOAL,
    ]));
    // The same column through another from item is no grouping column.
    with_view("04 02 00 00 01 01 10 0000 10 010100", 7);
    // Columns in where are free.
    accept(&text(&[
        TABLE,
        "04 01 00 01 01 11 010001 000000 0000 10 010000",
        GOAL,
    ]));
}

#[test]
fn number_8() {
    let eight = "01 08 01 00 0000 0000";
    let rest = "01 10 010000";
    let square = format!("03 02 00 00 {rest}");
    refuse(
        &text(&[eight, &square, &format!("03 02 00 01 {rest}")]),
        8,
        3,
    );
    refuse(&text(&[eight, &square, "05 01 01"]), 8, 3);
    accept(&text(&[eight, &square, "06 01 01", "07 02 00"]));
    // A factor 0 makes the product 0.
    let none = "01 00 01 00 0000 0000";
    let product = "03 03 01 01 00 01 10 010000";
    let zero = text(&[none, "03 01 00 01 10 010000", product, "07 02 00"]);
    assert_eq!(accept(&zero).row_bounds, [0, 0, 0]);
    let cube = "03 03 02 02 00 01 10 010000";
    let square = format!("03 02 01 01 {rest}");
    accept(&text(&[none, eight, &square, cube, "07 03 00"]));
}

#[test]
fn number_9() {
    let wide = "01 01 01 00 8000 7fff";
    let squares = "02 04 010000 010000 04 010000 010000";
    let refused = |view: &str| refuse(&text(&[wide, view, GOAL]), 9, 2);
    refused(&format!("03 01 00 01 10 {squares}"));
    refused(&format!("03 01 00 01 11 {squares} 000000 010000"));
    refused(&format!("03 01 00 01 10 06 1410 {squares} 000000"));
    refused(&format!(
        "03 01 00 01 10 06 11 {squares} 000000 000000 000000"
    ));
    refused(&format!("03 01 00 01 10 04 000000 {squares}"));
    refused(&format!("04 01 00 00 01 10 10 0700 {squares}"));
    refused(&format!(
        "04 01 00 00 01 10 11 0700 {squares} 000000 000000"
    ));
    // 32,767 × 65,538 is 2^31 - 2; rounding by 10 carries it over the end.
    let end = "04 007fff 02 02 007fff 007fff 000004";
    accept(&text(&[
        wide,
        &format!("03 01 00 01 10 02 {end} 000001"),
        GOAL,
    ]));
    refused(&format!("03 01 00 01 10 02 {end} 000002"));
    refused(&format!("03 01 00 01 10 05000a {end}"));
    // -32,768 × 65,536 is -2^31.
    let low = "04 008000 02 02 007fff 007fff 000002";
    accept(&text(&[wide, &format!("03 01 00 01 10 {low}"), GOAL]));
    refused(&format!("03 01 00 01 10 03 {low} 000001"));
}

#[test]
fn ranges_of_aggregates() {
    let file = accept(&text(&[
        "01 03 02 00 fffe 0005 0003 0007",
        "04 01 00 00 05 10 10 0700 010000 0701 010000 0702 010000 0701 010001 0703 010001",
        "06 01 01",
        "07 01 00",
    ]));
    let ranges: Vec<(i64, i64)> = file.ranges[1]
        .iter()
        .map(|range| (range.lo, range.hi))
        .collect();
    assert_eq!(ranges, [(0, 3), (-6, 15), (-2, 5), (0, 21), (3, 7)]);
    assert_eq!(file.ranges[2], file.ranges[1]);
}

#[test]
fn number_10() {
    let rest = [VIEW, GOAL];
    refuse(
        &text(&[
            "01 08 04 00 8000 7fff 8000 7fff 8000 7fff 8000 7fff",
            rest[0],
            rest[1],
        ]),
        10,
        0,
    );
    refuse(&text(&["01 02 01 00 0000 1000", rest[0], rest[1]]), 10, 0);
    assert_eq!(
        accept(&text(&["01 02 01 00 0000 0fff", rest[0], rest[1]])).candidates,
        1 << 24
    );
    // A table without rows has no cells.
    assert_eq!(
        accept(&text(&["01 00 01 00 8000 7fff", rest[0], rest[1]])).candidates,
        1
    );
    // A frame's refusal comes before N.
    refuse(&text(&["01 02 01 00 0000 1000", VIEW, "07 01 02"]), 5, 3);
}

#[test]
fn order_of_whole_frame_rules() {
    let eight = "01 08 01 00 8000 7fff";
    let squares = "02 04 010000 010000 04 010000 010000";
    let refused = |view: String, number| refuse(&text(&[eight, &view]), number, 2);
    refused(format!("03 03 00 00 00 01 10 0701 {squares}"), 7);
    refused(format!("03 03 00 00 00 01 10 {squares}"), 8);
    refused(format!("03 02 00 00 01 10 {squares}"), 9);
    refused(format!("03 03 00 00 00 01 10 0701 {squares} 00"), 4);
}

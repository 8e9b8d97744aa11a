//! `assemble` of the text of `explain` gives the same bytes.

mod common;

use common::{assemble, explain, frames, round_trip, statements, EXAMPLE};
use reference::bench::WALKS;
use reference::gen;
use reference::write;

/// The accepted files of M1 to M12, and others with every kind of frame and token.
const EXAMPLES: [&[&str]; 21] = [
    &["01 01 01 00 0000 000c", "03 01 00 01 12 000008 010000 010000", "03 01 01 01 12 000005 010000 010000", "07 02 00"],
    &["01 01 01 00 0000 000c", "03 01 00 01 12 000008 010000 010000", "03 01 01 01 12 000005 010000 010000", "07 02 01"],
    &["01 01 01 00 0000 0000", "03 01 00 01 10 05000a 00fff1", "07 01 00"],
    &["01 01 01 00 0000 0000", "03 01 00 01 10 0503e8 008000", "07 01 00"],
    &["01 02 01 00 0005 0005", "01 01 01 00 0005 0005", "03 01 00 01 10 010000", "03 01 01 01 10 010000", "05 02 03", "06 02 03", "06 03 02", "07 04 00"],
    &["01 02 01 00 0000 0003", "03 01 00 01 10 010000", "07 01 01"],
    &["01 00 01 00 0000 0003", "03 01 00 01 10 010000", "07 01 00"],
    &["01 02 01 01 0004 0004", "03 01 00 01 10 010000", "07 01 00"],
    &["01 02 01 00 0032 0033", "04 01 00 00 01 10 12 000064 0701 010000 0701 010000", "07 01 00"],
    &["01 02 01 00 0000 0003", "04 01 00 00 01 1410 10 0700 010000", "07 01 00"],
    &["01 01 02 00 0000 0fff 0000 0fff", "03 01 00 01 10 010000", "07 01 00"],
    &["01 08 01 00 0000 0000", "01 08 01 00 0000 0000", "01 02 01 00 0000 0000", "03 02 00 01 01 10 010000", "07 03 00"],
    &["01 01 01 00 8001 7fff", "03 01 00 01 10 02 04 010000 010000 04 010000 010000", "07 01 00"],
    &["01 02 02 03 0000 0003 0000 0003", "01 01 02 00 0000 0003 0000 0003", "02 01 00 02 00 01 01 00", "03 01 01 01 10 010000", "07 02 00"],
    &["01 03 01 00 0000 0002", "01 02 01 00 0005 0006", "03 02 00 01 02 10 010000 010100", "04 01 02 01 02 10 0001 10 010001 0701 010000", "05 02 02", "07 02 00"],
    // a basic view and an aggregate one that differ in their kind alone
    &["01 01 01 00 0000 0000", "03 01 00 01 10 000001", "04 01 00 00 01 10 10 000001", "07 01 00"],
    // no tables in from but views, three items, and min, max, a choice with a condition in it
    &["01 01 01 00 fffb 0005", "03 01 00 01 10 010000", "04 03 01 01 00 00 02 16 11 010000 010100 14 13 010200 00ffff 10 0702 06 15 10 14 10 010000 010100 0703 03 010000 00fffe", "07 02 01"],
    // differences and products to the right
    &["01 01 01 00 0000 0003", "03 01 00 02 10 03 010000 03 00fffe 03 000001 00ffff 04 02 010000 000001 04 000002 04 010000 010000", "07 01 00"],
    // and, or to the right and to the left
    &["01 01 01 00 0000 0003", "03 01 00 01 16 16 10 15 10 10 16 10 15 15 16 10 10 10 15 10 14 14 10 010000", "07 01 00"],
    // exists over a table and a view, side by side, and in the choice of an aggregate view
    &["01 02 02 00 0000 0001 0000 0001", "03 02 00 00 01 15 17 00 11 010200 010101 14 17 00 17 00 13 010300 010201 010000", "04 01 01 01 02 11 06 17 01 10 010000 000001 000001 0000 10 010000 0700 000001", "07 02 01"],
    // six open items
    &["01 01 01 00 0000 0001", "03 03 00 00 00 01 17 00 17 00 17 00 15 11 010500 010000 16 12 010400 010300 10 010200", "07 01 00"],
];

#[test]
fn the_worked_example() {
    assert_eq!(
        statements(EXAMPLE),
        "TABLE t0 ROWS 1 (c0 0 .. 12);\n\
         VIEW v1 AS SELECT a.c0 FROM t0 a WHERE 8 < a.c0;\n\
         VIEW v2 AS SELECT a.c0 FROM v1 a WHERE 5 < a.c0;\n\
         GOAL POSITIVE v2;\n"
    );
    assert_eq!(assemble(&explain(EXAMPLE)), EXAMPLE);
}

#[test]
fn the_text_says_what_it_is() {
    let readable = explain(EXAMPLE);
    let first = readable.lines().next().unwrap_or_default();
    assert!(first.starts_with("--") && first.contains("a convenience, which proves nothing"));
    assert!(readable.contains("\n-- Candidates: 13.\n"));
}

#[test]
fn examples() {
    for example in EXAMPLES {
        let rules = frames(example);
        round_trip(rules.as_bytes(), &rules);
    }
    for (name, rules) in WALKS {
        round_trip(rules.as_bytes(), name);
    }
}

#[test]
fn ten_thousand_random_files() {
    let mut exists = 0;
    for seed in 0..10_000 {
        let rules = write(&gen::file(seed));
        let readable = round_trip(&rules, &format!("seed {seed}"));
        exists += usize::from(readable.contains("EXISTS"));
    }
    assert!(exists > 1_000, "{exists}");
}

#[test]
fn random_files_with_cases() {
    for seed in 0..2_000 {
        let rules = write(&gen::mixed_file(seed));
        round_trip(&rules, &format!("mixed seed {seed}"));
    }
}

/// Damage goes where the generator does not: fields at their limits, frames of 120 bytes.
#[test]
fn damaged_files_that_are_accepted() {
    let mut accepted = 0;
    for seed in 0..30_000 {
        let rules = gen::damage(&write(&gen::file(seed % 1_000)), seed);
        if reference::read(&rules).is_ok() {
            round_trip(&rules, &format!("damage seed {seed}"));
            accepted += 1;
        }
    }
    assert!(accepted > 1_000, "{accepted}");
}

/// The deepest trees that 120 bytes hold.
#[test]
fn the_longest_frames() {
    let table = "01 01 01 00 0000 0001";
    let nots = format!("03 01 00 01 {} 10 010000", "14".repeat(112));
    let ands = format!("03 01 00 01 {} 10 010000", "15 10".repeat(56));
    let ors = format!("03 01 00 01 {} {} 010000", "16".repeat(56), "10".repeat(57));
    let mixed = format!("03 01 00 01 {} 10 010000", "14 15 10".repeat(37));
    let sums = format!("03 01 00 01 10 {} 010000", "03 000001".repeat(28));
    let rounds = format!("03 01 00 01 10 {} 010000", "05 0001".repeat(37));
    for view in [nots, ands, ors, mixed, sums, rounds] {
        let rules = frames(&[table, &view, "07 01 00"]);
        round_trip(rules.as_bytes(), &view);
    }
}

//! Token 17 on texts made by hand, each with what it gives.

use super::text;
use reference::Answer::{self, Case, NoCase};

/// Relation 0: two rows and one column.
pub const ONE: &str = "01 02 01 00 0000 0003";
/// Relation 1: two rows and two columns.
pub const TWO: &str = "01 02 02 00 0000 0003 0000 0003";

/// A file with one view, relation 2, in line 3.
pub fn with_view(view: &str) -> String {
    text(&[ONE, TWO, view, "07 02 00"])
}

/// Views for [`with_view`], a line each: the refusal, 0 where it is accepted, and the frame.
const VIEWS: &str = r#"
# "at most six in all", whatever the from list has.
0: 03 01 00 01 1700 1700 1700 1700 1700 11 010500 010000 010000
5: 03 01 00 01 1700 1700 1700 1700 1700 1700 10 010000
0: 03 02 00 00 01 1700 1700 1700 1701 11 010501 010000 010000
5: 03 02 00 00 01 1700 1700 1700 1701 1700 10 010000
0: 03 03 00 00 00 01 1700 1700 1701 11 010501 010000 010000
5: 03 03 00 00 00 01 1700 1700 1701 1700 10 010000
0: 04 01 00 00 01 1700 1700 1700 1700 1701 11 010501 010000 10 000000
5: 04 01 00 00 01 1700 1700 1700 1700 1700 1700 11 010601 010000 10 000000
# "5 for a seventh from item, at token 17 itself": its relation may be missing, or not fit.
5: 03 01 00 01 1700 1700 1700 1700 1700 17
5: 03 01 00 01 1700 1700 1700 1700 1700 17 02
5: 03 01 00 01 1700 1700 1700 1700 1700 17 ff
4: 03 01 00 01 1700 1700 1700 1700 17
6: 03 01 00 01 1700 1700 1700 1700 1702 17
# It is met in every part, and a bad byte to the left comes first.
5: 03 01 00 01 11 06 1700 1700 1700 1700 1700 17
5: 03 01 00 01 10 06 1700 1700 1700 1700 1700 17
5: 04 01 00 00 01 10 1700 1700 1700 1700 1700 17
5: 04 01 00 00 01 10 10 06 1700 1700 1700 1700 1700 17
5: 04 01 00 00 01 10 10 0700 06 1700 1700 1700 1700 1700 17
6: 03 01 00 01 15 11 010100 000000 1700 1700 1700 1700 1700 17
4: 03 01 00 01 15 18 1700 1700 1700 1700 1700 17
# "a relation numbered below the view": not the view itself, and none behind it.
0: 03 01 00 01 17 00 10 010000
0: 03 01 00 01 17 01 10 010000
6: 03 01 00 01 17 02
6: 03 01 00 01 17 02 10 010000
6: 03 01 00 01 17 03 10 010000
6: 03 01 00 01 17 10 10 010000
6: 03 01 00 01 17 ff
6: 04 01 00 00 01 10 17 02
# Its bytes may be missing, surplus or unknown.
4: 03 01 00 01 17
4: 03 01 00 01 17 01
4: 03 01 00 01 17 01 11 010100
4: 03 01 00 01 17 01 18 010000
4: 03 01 00 01 17 01 00 0000
4: 03 01 00 01 17 01 10 00 010000
# It is a condition token, unknown where an expression is due.
4: 03 01 00 01 10 17 01 10
4: 03 01 00 01 11 17 01 10 010000 010000
# "that relation's row is one more from item, numbered after those already open".
0: 03 01 00 01 17 01 11 010101 010000 010000
6: 03 01 00 01 17 00 11 010101
6: 03 01 00 01 17 01 11 010102
6: 03 01 00 01 17 01 11 0102
6: 03 02 00 01 01 17 00 11 010201
0: 03 02 00 01 01 17 00 11 010101 010200 010000
0: 03 01 00 01 17 00 17 01 15 11 010000 010100 11 010100 010201 010000
# Behind its condition the item is closed.
6: 03 01 00 01 15 17 01 10 11 0101
6: 03 01 00 01 15 11 010100 000000 17 01 10 010000
6: 03 01 00 01 15 17 01 17 01 10 11 010200 000000 010000
6: 03 01 00 01 17 01 15 17 01 10 11 010200 000000 010000
6: 03 01 00 01 17 01 10 010100
6: 04 01 00 01 01 17 01 10 0100 10 000000
6: 04 01 00 00 01 17 01 10 11 010100 000000 000000
6: 04 01 00 00 01 17 01 10 10 0700 010100
# Two side by side use the same number, each for its own relation.
0: 03 01 00 01 15 17 00 11 010100 000000 17 01 11 010101 000000 010000
6: 03 01 00 01 15 17 01 11 010101 000000 17 00 11 010101 000000 010000
0: 03 01 00 01 16 1700 1700 1700 1700 1700 10 1700 1700 1700 1700 1700 10 010000
# "It may stand only within where conditions", also in a 06 there.
0: 03 01 00 01 14 17 01 10 010000
0: 03 01 00 01 16 10 15 17 01 10 17 00 10 010000
0: 03 01 00 01 11 06 17 01 10 000001 000000 000001 010000
0: 03 01 00 01 17 01 11 06 17 00 11 010100 010200 010100 010000 000001 010000
0: 04 01 00 00 01 17 01 10 10 0700 000000
0: 04 01 00 01 01 11 06 14 17 01 10 010000 000001 000000 0000 10 010000
# "elsewhere it breaks the rule on 07": in having, in select, below a 07.
7: 04 01 00 00 01 10 17 01 10 000000
7: 04 01 00 00 01 10 14 15 10 17 01 10 000000
7: 04 01 00 00 01 10 11 06 17 01 10 000000 000000 000000 000000
7: 03 01 00 01 10 06 17 01 10 000000 000001
7: 04 01 00 00 01 10 10 06 17 01 10 000000 000001
7: 04 01 00 00 01 10 10 0701 06 17 01 10 000000 000001
7: 04 01 00 00 01 10 11 0700 06 17 01 10 010000 000001 000000 000000
# A 07 in where stands no better inside it, nor it inside that.
7: 03 01 00 01 17 01 11 0700 010100 000000 010000
7: 04 01 00 00 01 17 01 11 0701 010000 000000 10 0700 000000
7: 04 01 00 00 01 11 0701 06 17 01 10 000000 000001 000000 10 000000
# Elsewhere too its bytes are read with one more item open, and 4, 5, 6 come first.
7: 04 01 00 00 01 10 17 01 11 010101 000000 000000
4: 04 01 00 00 01 10 17
4: 04 01 00 00 01 10 17 01
6: 04 01 00 00 01 10 17 01 11 010102
6: 04 01 00 00 01 10 17 01 11 0102
5: 04 01 00 00 01 10 17 01 11 0704
4: 04 01 00 00 01 10 17 01 10 000000 00
6: 04 01 00 00 01 10 17 01 10 010100
7: 03 01 00 01 10 06 17 01 11 010101 000000 000000 000001
6: 03 01 00 01 10 06 17 01 10 010100
6: 04 01 00 00 01 10 10 0701 06 17 01 11 010102
"#;

/// These views, each with its refusal.
pub fn views() -> impl Iterator<Item = (&'static str, u8)> {
    let lines = VIEWS.lines().filter_map(|line| line.split_once(": "));
    let views = lines.filter(|(number, _)| !number.starts_with('#'));
    views.map(|(number, view)| (view, number.parse().expect("a refusal")))
}

/// A text, and the answer to a look at all of its candidates.
type File = (String, Answer);

/// Files with answers.
pub fn files() -> Vec<File> {
    [
        whole_frame_rules(),
        ranges(),
        row_bounds(),
        relations_without_rows(),
        views_below(),
        negative_goals(),
        set_views(),
        six_items(),
    ]
    .concat()
}

fn refused(frames: &[&str], number: u8, line: u16) -> File {
    (text(frames), Answer::Refused { number, line })
}

/// A basic view over relation 0.
fn basic(condition: &str) -> String {
    format!("03 01 00 01 {condition} 010000")
}

/// The sum of two squares of an item's column.
fn squares(item: &str) -> String {
    format!("02 04 01{item}00 01{item}00 04 01{item}00 01{item}00")
}

/// One row of all values of 16 bits: the sum of two squares is too large by one of them.
const WIDE: &str = "01 01 01 00 8000 7fff";
/// One row without that one.
const NARROW: &str = "01 01 01 00 8001 7fff";
/// One row from 0 to 5.
const ROW: &str = "01 01 01 00 0000 0005";
/// No row.
const NONE: &str = "01 00 01 00 8000 7fff";

/// 7 before 8, and 8 before 9.
fn whole_frame_rules() -> Vec<File> {
    let eight = "01 08 01 00 8000 7fff";
    let exists = format!("17 00 11 {} 000000", squares("00"));
    let select = format!("03 03 00 00 00 01 10 06 {exists} 000000 000000");
    let triple = format!("03 03 00 00 00 01 {exists} 010000");
    let double = format!("03 02 00 00 01 {exists} 010000");
    vec![
        refused(&[eight, &select], 7, 2),
        refused(&[eight, &triple], 8, 2),
        refused(&[eight, &double], 9, 2),
    ]
}

/// Ranges inside it are those of the item that it opens, also where that has no rows.
fn ranges() -> Vec<File> {
    let inside = squares("01");
    let alone = basic(&format!("17 01 11 {inside} 000000"));
    let deeper = basic(&format!("14 17 01 17 00 11 000000 {inside}"));
    let branch = basic(&format!(
        "11 06 17 01 12 {inside} 000000 000000 000000 000000"
    ));
    let outer = basic(&format!("17 01 11 {} 000002", squares("00")));
    let beside = basic(&format!("15 17 01 10 17 00 11 {inside} 000008"));
    let goal = "07 02 00";
    vec![
        refused(&[ROW, WIDE, &alone, goal], 9, 3),
        refused(&[ROW, WIDE, &deeper, goal], 9, 3),
        refused(&[ROW, WIDE, &branch, goal], 9, 3),
        refused(&[ROW, NONE, &alone, goal], 9, 3),
        (text(&[ROW, NARROW, &alone, goal]), Case(32_767)),
        (text(&[ROW, WIDE, &outer, goal]), Case(65_536)),
        (text(&[ROW, WIDE, &beside, goal]), Case(2 * 65_536)),
    ]
}

/// "Row bounds do not count it": 64 with two more items, and the sum of a group of one.
fn row_bounds() -> Vec<File> {
    let eight = "01 08 01 00 0000 0001";
    let square = "03 02 00 00 01 17 00 1700 10 010000";
    let sum = "04 01 00 00 01 17 01 10 10 0701 04 010000 02 010000 010000";
    let ones = "01 08 01 00 0001 0001";
    vec![
        (text(&[eight, square, "07 01 00"]), Case(0)),
        (text(&[NARROW, ones, sum, "07 02 00"]), Case(0)),
    ]
}

/// Over a relation without rows it is false, whatever the condition.
fn relations_without_rows() -> Vec<File> {
    let file = |condition: &str, goal: &str| {
        let view = format!("03 01 01 01 {condition} 010000");
        text(&[NONE, ROW, &view, goal])
    };
    vec![
        (file("17 00 10", "07 02 00"), NoCase),
        (file("17 00 10", "07 02 01"), Case(0)),
        (file("17 00 1410", "07 02 00"), NoCase),
        (file("14 17 00 10", "07 02 00"), Case(0)),
        (file("14 17 00 10", "07 02 01"), NoCase),
        (file("14 17 00 1410", "07 02 00"), Case(0)),
        (file("17 01 17 00 10", "07 02 00"), NoCase),
        (file("17 01 14 17 00 10", "07 02 00"), Case(0)),
        (file("14 17 00 17 01 10", "07 02 00"), Case(0)),
    ]
}

/// Relation 1 keeps what is above 3. It is worked out where only an exists names it, and so is what
/// is below such a view.
fn views_below() -> Vec<File> {
    let above = "03 01 00 01 12 000003 010000 010000";
    let file = |condition: &str, goal| text(&[ROW, above, &basic(condition), goal]);
    let lowered = "03 01 01 01 10 03 010000 000002";
    let counted = "04 01 00 00 01 17 02 11 010100 000003 10 0700 000000";
    let branch = "12 000000 06 17 01 11 010100 000005 000001 000000";
    vec![
        (file("17 01 10", "07 02 00"), Case(4)),
        (file("17 01 10", "07 02 01"), Case(0)),
        (file("14 17 01 10", "07 02 00"), Case(0)),
        (file("14 17 01 10", "07 02 01"), Case(4)),
        (file("17 01 11 010100 000005", "07 02 00"), Case(5)),
        (file(branch, "07 02 00"), Case(5)),
        (text(&[ROW, above, lowered, counted, "07 03 00"]), Case(5)),
        // The view itself and a later one: its number is that at the place of its frame.
        refused(&[ROW, above, &basic("17 02 10"), "07 02 00"], 6, 3),
        refused(&[ROW, &basic("17 02 10"), above, "07 02 00"], 6, 2),
    ]
}

/// Where is negated as any other.
fn negative_goals() -> Vec<File> {
    let rows = "01 02 01 00 0000 0002";
    let inside = basic("17 01 11 010000 010100");
    let counted = |having| {
        let condition = "17 01 11 010000 010100";
        format!("04 01 00 00 01 {condition} {having} 0700 000000")
    };
    let apart = counted("12 0702 010000 0703 010000");
    let zero = "01 01 01 00 0000 0000";
    vec![
        // Some row is not in relation 1: 0, 0 and 1, 1.
        (text(&[rows, rows, &inside, "07 02 01"]), Case(3 + 1)),
        // (w, not h): both are in it, and do not differ. Positive are 0, 1 and 0, 1.
        (text(&[rows, rows, &apart, "07 02 01"]), Case(0)),
        (text(&[rows, rows, &apart, "07 02 00"]), Case(9 + 1)),
        // (not w, h): 1 is not in it.
        (text(&[rows, zero, &counted("10"), "07 02 01"]), Case(1)),
    ]
}

/// Operands of set views: view 2 has a row from 4 up, and view 3 up to 4.
fn set_views() -> Vec<File> {
    let above = "03 01 00 01 12 000003 010000 010000";
    let (from, to) = (basic("17 01 10"), basic("14 17 01 11 010100 000005"));
    let file = |set, goal| text(&[ROW, above, &from, &to, set, goal]);
    vec![
        (file("06 02 03", "07 04 00"), Case(4)),
        (file("05 02 03", "07 04 00"), Case(0)),
        (file("05 02 03", "07 04 01"), NoCase),
        (file("06 02 03", "07 04 01"), Case(0)),
        (file("06 03 03", "07 04 01"), Case(5)),
    ]
}

/// Each value above the one before it, for six items: the digits 0, 1, 2, 3, 4, 5 to the base 6.
/// Five rows are too few.
fn six_items() -> Vec<File> {
    let rising = basic(
        "1700 15 12 010000 010100 1700 15 12 010100 010200 1700 15 12 010200 010300 \
        1700 15 12 010300 010400 1700 12 010400 010500",
    );
    let file = |table| text(&[table, &rising, "07 01 00"]);
    vec![
        (file("01 06 01 00 0000 0005"), Case(1865)),
        (file("01 05 01 00 0000 0005"), NoCase),
    ]
}

/// Relation 0 has 1 and 2; relation 1 has (2, 0) and (3, 1).
const CELLS: [i16; 6] = [1, 2, 2, 0, 3, 1];

/// A view for [`with_view`], the cells of a database, and its rows there.
type Shown = (&'static str, [i16; 6], &'static [&'static [i64]]);

/// Views with their rows.
pub const ROWS: &[Shown] = &[
    // "It holds when some row satisfies the condition, with outer columns visible."
    ("03 01 00 01 17 01 10 010000", CELLS, &[&[1], &[2]]),
    ("03 01 00 01 17 01 1410 010000", CELLS, &[]),
    ("03 01 00 01 17 01 11 010000 010100 010000", CELLS, &[&[2]]),
    (
        "03 01 00 01 14 17 01 11 010000 010100 010000",
        CELLS,
        &[&[1]],
    ),
    ("03 01 00 01 17 01 11 010000 010101 010000", CELLS, &[&[1]]),
    // The row is the first, or the last, or none.
    (
        "03 01 00 01 17 01 11 010100 000002 010000",
        CELLS,
        &[&[1], &[2]],
    ),
    (
        "03 01 00 01 17 01 11 010100 000003 010000",
        CELLS,
        &[&[1], &[2]],
    ),
    ("03 01 00 01 17 01 11 010100 000000 010000", CELLS, &[]),
    // Two rows that satisfy it keep a combination once.
    (
        "03 01 00 01 17 01 13 010000 010100 010000",
        CELLS,
        &[&[1], &[2]],
    ),
    // One row satisfies the whole: none is (2, 1).
    (
        "03 01 00 01 17 01 15 11 010100 000002 11 010101 000001 010000",
        CELLS,
        &[],
    ),
    (
        "03 01 00 01 15 17 01 11 010100 000002 17 01 11 010101 000001 010000",
        CELLS,
        &[&[1], &[2]],
    ),
    // Some row above that has none above it: all but the greatest.
    (
        "03 01 00 01 17 00 15 12 010000 010100 14 17 00 12 010100 010200 010000",
        CELLS,
        &[&[1]],
    ),
    (
        "03 01 00 01 17 00 15 12 010000 010100 14 17 00 12 010100 010200 010000",
        [2, 2, 0, 0, 0, 0],
        &[],
    ),
    // All rows of relation 1 are above: none is not.
    (
        "03 01 00 01 14 17 01 14 12 010000 010100 010000",
        CELLS,
        &[&[1]],
    ),
    // The outermost column is read in the innermost condition.
    (
        "03 01 00 01 17 01 17 00 15 11 010000 010101 11 010200 010100 010000",
        [0, 2, 2, 0, 3, 1],
        &[&[0]],
    ),
    (
        "03 01 00 01 17 01 17 00 15 11 010000 010101 11 010200 010100 010000",
        CELLS,
        &[],
    ),
    // In a 06, and in one inside an exists.
    (
        "03 01 00 01 11 06 17 01 11 010000 010100 000001 000000 000001 010000",
        CELLS,
        &[&[2]],
    ),
    (
        "03 01 00 01 17 00 12 06 17 01 11 010100 010200 010000 000003 000002 010000",
        CELLS,
        &[&[1]],
    ),
    // Behind three from items the next is number 3.
    (
        "03 03 00 00 01 03 17 01 15 11 010300 02 010000 010100 11 010300 010200 \
        010000 010100 010200",
        CELLS,
        &[&[1, 1, 2], &[1, 2, 3], &[2, 1, 3]],
    ),
    // In where of groups.
    (
        "04 01 01 00 02 17 00 11 010000 010100 10 0700 000000 0701 010001",
        CELLS,
        &[&[1, 0]],
    ),
    (
        "04 01 01 00 02 17 00 11 010000 010100 10 0700 000000 0701 010001",
        [3, 2, 2, 0, 3, 1],
        &[&[2, 1]],
    ),
    (
        "04 01 01 00 02 17 00 11 010000 010100 10 0700 000000 0701 010001",
        [0, 1, 2, 0, 3, 1],
        &[],
    ),
];

//! Readable text as a writer types it, and what is said of wrong ones.

mod common;

use common::{assemble, fault, frames, round_trip, EXAMPLE};
use reference::sentence::both;
use reference::Refusal;

/// A text with one view, which has this definition and stands on line 2.
fn with_view(definition: &str) -> String {
    format!(
        "TABLE t0 ROWS 2 (c0 0 .. 3, c1 0 .. 3);\nVIEW v1 AS {definition};\nGOAL POSITIVE v1;\n"
    )
}

#[test]
fn comments_and_white_space() {
    let readable = "-- the worked example\r\n\
        table T0 rows 1(c0 0..12);view v1 as -- ; not the end\n\
        \tselect\n  x.c0 from t0 AS x\n\n where((8)<X.C0) ; -- -- é\n\
        View V2 As Select (a . c0) From v1 a Where 5 < a.c0; GOAL positive v2;-- end";
    assert_eq!(assemble(readable), EXAMPLE);
}

#[test]
fn every_statement() {
    let readable = "\
        TABLE t0 ROWS 2 (c0 0 .. 3 KEY, c1 -1 .. 3 KEY);\n\
        TABLE t1 ROWS 1 (c0 -32768 .. -32768, c1 0 .. 3);\n\
        FOREIGN KEY t1 (c0, c1) REFERENCES t0 (c1, c0);\n\
        VIEW v2 AS SELECT p.c0 - -1, ROUND(q.c1, 10) FROM t0 p, t1 q WHERE NOT p.c0 = 1;\n\
        VIEW v3 AS SELECT a.c0, SUM(CASE WHEN a.c1 <= 1 THEN 1 ELSE 2 * a.c1 END) FROM v2 a\n\
        GROUP BY a.c0 HAVING COUNT(a.c1) = 1;\n\
        VIEW v4 AS v2 UNION v3;\n\
        VIEW v5 AS v4 INTERSECT v2;\n\
        GOAL NEGATIVE v5;\n";
    let rules = frames(&[
        "01 02 02 03 0000 0003 ffff 0003",
        "01 01 02 00 8000 8000 0000 0003",
        "02 01 00 02 00 01 01 00",
        "03 02 00 01 02 14 11 010000 000001 03 010000 00ffff 05 000a 010101",
        "04 01 02 01 02 10 0000 11 07 00 010001 000001 010000 \
         07 01 06 13 010001 000001 000001 04 000002 010001",
        "05 02 03",
        "06 04 02",
        "07 05 01",
    ]);
    assert_eq!(assemble(readable), rules);
    round_trip(rules.as_bytes(), "every statement");
}

#[test]
fn left_out_conditions_are_true() {
    let basic = "SELECT a.c0 FROM t0 a";
    let aggregate = "SELECT COUNT(1) FROM t0 a GROUP BY ()";
    let said = |text: &str| assemble(&with_view(text));
    assert_eq!(said(basic), said(&format!("{basic} WHERE TRUE")));
    assert_eq!(said(aggregate), said(&format!("{aggregate} HAVING TRUE")));
    assert!(said("SELECT 1 FROM t0 a").contains("\n03"));
    assert!(said("SELECT 1 FROM t0 a GROUP BY ()").contains("\n04"));
}

/// Any names, outer ones inside, and a name again once it is closed.
#[test]
fn exists() {
    let readable = "SELECT p.c0 FROM t0 p\n\
        WHERE exists(from t0 as q where Q.c1 = p.c0 AND NOT EXISTS (FROM t0 r))\n\
        OR EXISTS (FROM t0 q WHERE CASE WHEN EXISTS (FROM t0 r) THEN 1 ELSE q.c0 END = 1)";
    let rules = frames(&[
        "01 02 02 00 0000 0003 0000 0003",
        "03 01 00 01 16 17 00 15 11 010101 010000 14 17 00 10 \
         17 00 11 06 17 00 10 000001 010100 000001 010000",
        "07 01 00",
    ]);
    assert_eq!(assemble(&with_view(readable)), rules);
    round_trip(rules.as_bytes(), "exists");
}

/// A view that opens so many from items, three of them in its from list.
fn opened(items: usize) -> String {
    let names = ["d", "e", "f", "g"].into_iter().take(items - 3);
    let opened: String = names
        .map(|name| format!("EXISTS (FROM t0 {name} WHERE "))
        .collect();
    let closed = ")".repeat(items - 3);
    format!("SELECT a.c0 FROM t0 a, t0 b, t0 c WHERE {opened}a.c0 = c.c1{closed}")
}

#[test]
fn six_from_items() {
    let rules = assemble(&with_view(&opened(6)));
    assert!(rules.contains("\n03030000000117001700170011010000010201010000\n"));
    assert_eq!(
        fault(&with_view(&opened(7))),
        "line 2: there are more than 6 from items with those of EXISTS"
    );
}

/// Where conditions, and what is wrong with each.
const FAULTS_OF_EXISTS: [(&str, &str); 14] = [
    ("EXISTS (FROM t0 a)", "two from items named `a`"),
    (
        "EXISTS (FROM t0 b WHERE EXISTS (FROM t0 b))",
        "two from items named `b`",
    ),
    (
        "EXISTS (FROM t0 b) AND b.c0 = 1",
        "no from item is named `b` here",
    ),
    (
        "EXISTS (FROM t0 b WHERE c.c0 = 1)",
        "no from item is named `c` here",
    ),
    (
        "EXISTS (FROM t0 b WHERE b.c2 = 1)",
        "no column c2 there: its last is c1",
    ),
    (
        "EXISTS (FROM v1 b)",
        "no relation v1 stands before this statement",
    ),
    (
        "EXISTS (FROM v0 b)",
        "no relation v0 stands before this statement",
    ),
    (
        "EXISTS (SELECT 1 FROM t0 b)",
        "FROM is due, but there is `SELECT`",
    ),
    ("EXISTS t0 b", "`(` is due, but there is `t0`"),
    (
        "EXISTS (FROM t0)",
        "a name such as a for the from item is due, but there is `)`",
    ),
    (
        "EXISTS (FROM t0 exists)",
        "a name such as a for the from item is due, but there is `exists`",
    ),
    ("EXISTS (FROM t0 b, t0 c)", "`)` is due, but there is `,`"),
    (
        "EXISTS (FROM t0 b WHERE b.c0)",
        "an expression stands where a condition is due",
    ),
    (
        "EXISTS (FROM t0 b) = 1",
        "a condition stands where an expression is due",
    ),
];

#[test]
fn faults_of_exists() {
    for (condition, expected) in FAULTS_OF_EXISTS {
        let view = format!("SELECT a.c0 FROM t0 a WHERE {condition}");
        let said = fault(&with_view(&view));
        assert_eq!(said, format!("line 2: {expected}"), "{condition}");
    }
}

#[test]
fn faults_of_views() {
    let said = |definition: &str| fault(&with_view(definition));
    let cases = [
        (
            "SELECT a.c0 FROM t0 a WHERE a.c0",
            "an expression stands where a condition is due",
        ),
        (
            "SELECT a.c0 < 1 FROM t0 a",
            "a condition stands where an expression is due",
        ),
        (
            "SELECT a.c0 + (1 = 1) FROM t0 a",
            "a condition stands where an expression is due",
        ),
        (
            "SELECT a.c0 FROM t0 a WHERE 1 < 2 < 3",
            "`;` is due, but there is `<`",
        ),
        ("SELECT b.c0 FROM t0 a", "no from item is named `b` here"),
        (
            "SELECT a.c2 FROM t0 a",
            "no column c2 there: its last is c1",
        ),
        ("SELECT a.c0 FROM t0 a, t0 a", "two from items named `a`"),
        (
            "SELECT a.c0 FROM t0",
            "a name such as a for the from item is due, but there is `;`",
        ),
        (
            "SELECT a.c0 FROM v1 a",
            "no relation v1 stands before this statement",
        ),
        (
            "SELECT a.c0 FROM t00 a",
            "a table or view such as t0 or v1 is due, but there is `t00`",
        ),
        ("SELECT a.c0", "SELECT without FROM"),
        ("SELECT EXISTS (FROM t0 b)", "SELECT without FROM"),
        ("SELECT EXISTS FROM t0 a", "`(` is due, but there is `FROM`"),
        (
            "SELECT EXISTS (FROM t0 b) FROM t0 a",
            "a condition stands where an expression is due",
        ),
        (
            "SELECT b.c0 FROM t0 a WHERE EXISTS (FROM t0 b)",
            "no from item is named `b` here",
        ),
        (
            "SELECT a.c0 a.c1 FROM t0 a",
            "FROM is due, but there is `a`",
        ),
        (
            "SELECT FROM t0 a",
            "an expression or a condition is due, but there is `FROM`",
        ),
        (
            "SELECT COUNT(*) FROM t0 a",
            "an expression or a condition is due, but there is `*`",
        ),
        ("SELECT a.c0 FROM t0 a HAVING TRUE", "HAVING needs GROUP BY"),
        (
            "SELECT a.c0 FROM t0 a WHERE a.c0 > 1",
            "`>` is not used here: swap the sides and write <",
        ),
        (
            "SELECT a.c0 FROM t0 a WHERE a.c0 <> 1",
            "`<>` is not used here: write NOT (x = y)",
        ),
        (
            "SELECT 32768 FROM t0 a",
            "32768 is not from -32768 to 32767",
        ),
        (
            "SELECT 99999999999 FROM t0 a",
            "the number 99999999999 is too large",
        ),
        (
            "SELECT 1e3 FROM t0 a",
            "`1e3` is neither a number nor a name",
        ),
        ("SELECT ROUND(1, 0) FROM t0 a", "0 is not from 1 to 1000"),
        ("SELECT 'x' FROM t0 a", "unknown character '\\''"),
        (
            "SELECT 1,1,1,1,1,1,1,1,1 FROM t0 a",
            "there are more than 8 select expressions",
        ),
        (
            "SELECT 1 FROM t0 a, t0 b, t0 c, t0 d",
            "there are more than 3 from items",
        ),
        (
            "t0 UNION t0",
            "SELECT or a view such as v1 is due, but there is `t0`",
        ),
    ];
    for (definition, expected) in cases {
        let said = said(definition);
        assert!(said.starts_with(&format!("line 2: {expected}")), "{said}");
    }
}

#[test]
fn faults_of_statements() {
    let table = "TABLE t0 ROWS 1 (c0 0 .. 3);\n";
    let view = "VIEW v1 AS SELECT a.c0 FROM t0 a;\n";
    let goal = "GOAL POSITIVE v1;\n";
    let cases = [
        (String::new(), "line 1: the text ends without a goal"),
        (
            format!("{table}{view}"),
            "line 2: the text ends without a goal",
        ),
        (format!("{table}{view}{table}"), "line 3: out of order"),
        (
            format!("{table}{view}{goal}\n-- and\n{goal}"),
            "line 6: out of order",
        ),
        (format!("{table}{view}FOREIGN KEY"), "line 3: out of order"),
        (
            format!("{table}{table}"),
            "line 2: the name t1 (relations are numbered in turn",
        ),
        (
            format!("{table}VIEW v0"),
            "line 2: the name v1 (relations are numbered in turn",
        ),
        (
            format!("{table}GOAL POSITIVE t0;"),
            "line 2: a view such as v1 is due",
        ),
        (
            format!("{table}GOAL v0;"),
            "line 2: POSITIVE or NEGATIVE is due",
        ),
        (
            format!("{table}SELECT 1"),
            "line 2: TABLE, FOREIGN KEY, VIEW or GOAL is due",
        ),
        (
            "TABLE t0 ROWS 1 (c1 0 .. 3);".to_owned(),
            "line 1: the name c0 (columns are",
        ),
        (
            "TABLE t0 ROWS 1\n(c0 0 3);".to_owned(),
            "line 2: `..` is due, but there is `3`",
        ),
        (
            "TABLE t0 ROWS 1 (c0 0 .. 3)".to_owned(),
            "line 1: `;` is due, but there is the end",
        ),
        (
            format!("{table}FOREIGN KEY t0 (c0) REFERENCES t0 (c0, c0);"),
            "line 2: 1 columns refer",
        ),
    ];
    for (readable, expected) in cases {
        let said = fault(&readable);
        assert!(said.starts_with(expected), "{said}, for\n{readable}");
    }
}

#[test]
fn bytes_that_are_no_text() {
    let fault = rulefile::assemble(b"-- one\nTABLE \xff").expect_err("no text");
    assert_eq!(fault.to_string(), "line 2: these bytes are no UTF-8 text");
}

#[test]
fn endless_trees() {
    let many = 100_000;
    let nested = format!("SELECT {}1{} FROM t0 a", "(".repeat(many), ")".repeat(many));
    let long = format!("SELECT 1{} FROM t0 a", " + 1".repeat(many));
    let nots = format!("SELECT 1 FROM t0 a WHERE {} TRUE", "NOT ".repeat(many));
    let rounds = format!("SELECT {} FROM t0 a", "ROUND(".repeat(many));
    let beside = "EXISTS (FROM t0 b) AND ".repeat(many);
    let beside = format!("SELECT 1 FROM t0 a WHERE {beside}TRUE");
    for definition in [nested, long, nots, rounds, beside] {
        let said = fault(&with_view(&definition));
        assert_eq!(
            said,
            "line 2: too many operators and parentheses for one frame"
        );
    }
}

/// The refusal that the frames of a text meet.
fn refusal(readable: &str) -> String {
    let assembled = rulefile::assemble(readable.as_bytes()).expect("frames");
    assert!(assembled.frames.starts_with(b"0102"));
    assembled.refusal.expect("a refusal")
}

/// A view that is refused by 7.
const AGGREGATE: &str = "\n  SELECT SUM(a.c0)\n  FROM t0 a";

/// Frames that would be refused are given, with the refusal.
#[test]
fn refused_frames() {
    let expected = "    VIEW v1 AS\n".to_owned() + &both(Refusal { number: 7, line: 2 });
    assert_eq!(refusal(&with_view(AGGREGATE)), expected);
    let long = refusal(&with_view(&format!(
        "SELECT 1{} FROM t0 a",
        " + 1".repeat(40)
    )));
    assert!(long.starts_with("    VIEW v1 AS SELECT 1 + 1 + "), "{long}");
    assert!(
        long.ends_with(&both(Refusal { number: 2, line: 2 })),
        "{long}"
    );
}

/// An exists is read everywhere; its place is left to the reader of frames.
#[test]
fn exists_elsewhere_than_in_where() {
    let exists = "EXISTS (FROM t0 b WHERE b.c0 = 1)";
    let choice = format!("CASE WHEN {exists} THEN 1 ELSE 2 END");
    let definitions = [
        format!("SELECT {choice} FROM t0 a"),
        format!("SELECT COUNT({choice}) FROM t0 a GROUP BY ()"),
        format!("SELECT COUNT(1) FROM t0 a GROUP BY () HAVING {exists}"),
    ];
    for definition in definitions {
        let said = refusal(&with_view(&definition));
        let sentences = both(Refusal { number: 7, line: 2 });
        assert_eq!(said, format!("    VIEW v1 AS {definition};\n{sentences}"));
    }
}

/// The line is that of the statement in the text, not that of its frame.
#[test]
fn lines_of_refused_statements() {
    let below = |comments: usize| {
        let comments = "-- a comment\n".repeat(comments);
        refusal(&with_view(AGGREGATE).replace("VIEW", &format!("{comments}VIEW")))
    };
    for (comments, line) in [(1, 3), (40, 42), (65_533, 65_535), (65_534, 0)] {
        let expected = "    VIEW v1 AS\n".to_owned() + &both(Refusal { number: 7, line });
        assert_eq!(below(comments), expected);
    }
    // no line is at fault
    let wide = with_view("SELECT a.c0 FROM t0 a").replace("0 .. 3", "0 .. 9999");
    assert_eq!(
        refusal(&wide),
        both(Refusal {
            number: 10,
            line: 0
        })
    );
}

/// The texts shown in the README are as it says.
#[test]
fn readme() {
    let readme = include_str!("../README.md");
    let plain = readme.replace("\n    ", "\n");
    assert!(plain.contains(&common::explain(EXAMPLE)));
    let spoilt = EXAMPLE.replace("070200", "0702");
    let refusal = rulefile::explain(spoilt.as_bytes()).expect_err("refused");
    assert!(plain.contains(&refusal));
    let begin = plain.find("TABLE t0 ROWS 2").expect("a text");
    let goal = "GOAL NEGATIVE v6;\n";
    let end = plain.find(goal).expect("its end") + goal.len();
    let assembled = rulefile::assemble(&plain.as_bytes()[begin..end]).expect("frames");
    assert_eq!(assembled.refusal, None);
}

//! The evaluation beside an independent one: the same rows in the same order, the same verdicts.

use evaluation::{evaluate, position};
use reference::candidates::{candidate_database, database};
use reference::cases::{is_case, is_valid};
use reference::eval::{relations, Database, Rows};
use reference::gen::{self, exists_marks, Rng, Size, EXISTS_MARKS};
use reference::look::WORK;
use reference::syntax::{Syntax, View};
use reference::{File, Refusal};
use std::collections::BTreeMap;

#[path = "../../reference/tests/common/mod.rs"]
mod common;

use common::{
    accept, bags, equal_rows, exists, having, no_members, no_rows, rounding, where_true, EXAMPLE,
    ROUNDED,
};

fn random_counts(rng: &mut Rng, length: usize) -> Vec<u8> {
    (0..length).map(|_| rng.bits() as u8).collect()
}

fn random_work(rng: &mut Rng, length: usize) -> Vec<i32> {
    (0..length).map(|_| rng.bits() as i32).collect()
}

/// The answer for a database, and the rows of every relation as the buffers have them afterwards.
///
/// Before, the buffers hold random numbers but for the tables' cells.
fn evaluated(rng: &mut Rng, text: &[u8], file: &File, database: &Database) -> (u32, Vec<Rows>) {
    let mut counts = random_counts(rng, 16);
    let length = WORK + rng.below(2);
    let mut work = random_work(rng, length);
    for (table, rows) in database.tables.iter().enumerate() {
        for (at, row) in rows.iter().enumerate() {
            for (column, &cell) in row.iter().enumerate() {
                work[position(table, at, column)] = cell as i32;
            }
        }
    }
    let answer = evaluate(text, &mut counts, &mut work);
    let cell = |relation, row, column| i64::from(work[position(relation, row, column)]);
    let rows = |relation: usize| {
        let columns = file.ranges[relation].len();
        let row = |at| {
            (0..columns)
                .map(|column| cell(relation, at, column))
                .collect()
        };
        (0..usize::from(counts[relation])).map(row).collect()
    };
    (answer, (0..file.ranges.len()).map(rows).collect())
}

/// How often each kind of file, view and database was met.
#[derive(Default)]
struct Tally {
    files: u64,
    databases: u64,
    met: BTreeMap<String, u64>,
}

impl Tally {
    fn mark(&mut self, condition: bool, name: &str) {
        if condition {
            *self.met.entry(name.to_owned()).or_insert(0) += 1;
        }
    }

    /// Compares the first candidate, the last, and some others.
    fn compare_file(&mut self, rng: &mut Rng, text: &[u8], file: &File, others: usize) {
        self.files += 1;
        self.mark_file(file);
        let mut candidates = vec![0, file.candidates - 1];
        candidates.extend((0..others).map(|_| rng.bits() % file.candidates));
        for k in candidates {
            self.compare(rng, text, file, &candidate_database(&file.syntax, k));
        }
    }

    /// Compares the rows of every relation, tables included, and the verdict.
    fn compare(&mut self, rng: &mut Rng, text: &[u8], file: &File, database: &Database) {
        let (answer, rows) = evaluated(rng, text, file, database);
        let shown = || format!("{database:?}\n{}", String::from_utf8_lossy(text));
        let expected = relations(&file.syntax, database);
        assert_eq!(rows, expected, "{}", shown());
        let case = is_case(file, database);
        assert_eq!(answer, u32::from(case), "{}", shown());
        self.databases += 1;
        self.mark_database(file, database, &expected, case);
    }

    fn mark_file(&mut self, file: &File) {
        let Syntax {
            tables,
            keys,
            views,
            goal,
        } = &file.syntax;
        self.mark(tables.iter().any(|table| table.key_mask != 0), "key");
        self.mark(tables.iter().any(|table| table.rows == 0), "empty table");
        self.mark(file.syntax.cells() == 0, "no cells");
        self.mark(!keys.is_empty(), "foreign key");
        let own = keys.iter().any(|key| key.child == key.parent);
        self.mark(own, "self reference");
        self.mark(!goal.negative, "positive goal");
        self.mark(goal.negative, "negative goal");
        self.mark(file.ranges.len() == 16, "16 relations");
        for name in exists_marks(&file.syntax) {
            self.mark(true, name);
        }
        for view in views {
            self.mark(true, kind(view));
            if let View::Aggregate(grouped) = view {
                self.mark(
                    true,
                    &format!("{} grouping columns", grouped.grouping.len()),
                );
            }
        }
    }

    fn mark_database(&mut self, file: &File, database: &Database, rows: &[Rows], case: bool) {
        let syntax = &file.syntax;
        let valid = is_valid(syntax, database);
        let unlinked = Syntax {
            keys: Vec::new(),
            ..syntax.clone()
        };
        let keyed = is_valid(&unlinked, database);
        self.mark(!keyed, "broken key");
        self.mark(keyed && !valid, "broken foreign key alone");
        self.mark(valid && !syntax.keys.is_empty(), "kept foreign key");
        let views = &rows[syntax.tables.len()..];
        self.mark(views.iter().any(|rows| rows.len() == 64), "64 rows");
        let wide = |value: &i64| i16::try_from(*value).is_err();
        self.mark(views.iter().flatten().flatten().any(wide), "wide value");
        if valid && syntax.cells() > 0 {
            let sign = ["positive", "negative"][usize::from(syntax.goal.negative)];
            let view = syntax.view(usize::from(syntax.goal.view)).map_or("", kind);
            let verdict = ["no case", "case"][usize::from(case)];
            self.mark(true, &format!("{sign} {view}, {verdict}"));
            let marks = exists_marks(syntax);
            for name in ["exists in the goal", "exists in the negated goal"] {
                self.mark(marks.contains(name), &format!("{name}, {verdict}"));
            }
        }
    }

    /// Shows what was met; each of the kinds some hundred times.
    fn finish(&self, kinds: &[impl AsRef<str>]) {
        println!("{} files, {} databases", self.files, self.databases);
        for (name, count) in &self.met {
            println!("{count:7} {name}");
        }
        for name in kinds.iter().map(AsRef::as_ref) {
            assert!(self.met.get(name).is_some_and(|&n| n >= 300), "{name}");
        }
    }
}

fn kind(view: &View) -> &'static str {
    match view {
        View::Basic(_) => "basic",
        View::Aggregate(_) => "aggregate",
        View::Union(..) => "union",
        View::Intersection(..) => "intersection",
    }
}

/// What random files and their databases have, beside [`EXISTS_MARKS`].
const KINDS: [&str; 42] = [
    "basic",
    "aggregate",
    "union",
    "intersection",
    "0 grouping columns",
    "1 grouping columns",
    "2 grouping columns",
    "3 grouping columns",
    "4 grouping columns",
    "16 relations",
    "64 rows",
    "wide value",
    "empty table",
    "no cells",
    "key",
    "broken key",
    "foreign key",
    "self reference",
    "kept foreign key",
    "broken foreign key alone",
    "positive goal",
    "positive basic, case",
    "positive basic, no case",
    "positive aggregate, case",
    "positive aggregate, no case",
    "positive union, case",
    "positive union, no case",
    "positive intersection, case",
    "positive intersection, no case",
    "negative goal",
    "negative basic, case",
    "negative basic, no case",
    "negative aggregate, case",
    "negative aggregate, no case",
    "negative union, case",
    "negative union, no case",
    "negative intersection, case",
    "negative intersection, no case",
    "exists in the goal, case",
    "exists in the goal, no case",
    "exists in the negated goal, case",
    "exists in the negated goal, no case",
];

/// Plain files, files with cases after others, and files with many candidates.
#[test]
fn random_databases() {
    let mut rng = Rng::new(1);
    let mut tally = Tally::default();
    for seed in 0..10_000 {
        for file in [
            gen::file(seed),
            gen::mixed_file(seed),
            gen::file_of_size(2_000_000 + seed, Size::LARGE),
        ] {
            tally.compare_file(&mut rng, &reference::write(&file), &file, 3);
        }
    }
    let kinds: Vec<&str> = KINDS.into_iter().chain(EXISTS_MARKS).collect();
    tally.finish(&kinds);
}

/// A refused text leaves buffers of any length as they are, and short buffers are refused first; an
/// accepted text is compared.
#[test]
fn damaged_texts() {
    let mut rng = Rng::new(2);
    let mut tally = Tally::default();
    for seed in 0..2_000 {
        let text = reference::write(&gen::file(1_000_000 + seed));
        // one text in five meets buffers of any length, mostly short
        let lengths = match seed % 5 {
            0 => (rng.below(20), rng.below(WORK + 100)),
            _ => (16 + rng.below(8), WORK + rng.below(100)),
        };
        let short = lengths.0 < 16 || lengths.1 < WORK;
        let counts = random_counts(&mut rng, lengths.0);
        let work = random_work(&mut rng, lengths.1);
        for k in 0..32 {
            let damaged = gen::damage(&text, seed * 32 + k);
            match reference::read(&damaged) {
                Ok(file) => tally.compare_file(&mut rng, &damaged, &file, 1),
                Err(Refusal { number, line }) => {
                    let (mut counts_after, mut work_after) = (counts.clone(), work.clone());
                    let answer = evaluate(&damaged, &mut counts_after, &mut work_after);
                    let expected = match short {
                        true => 11 << 16,
                        false => u32::from(number) << 16 | u32::from(line),
                    };
                    assert_eq!(answer, expected, "{:?}", String::from_utf8_lossy(&damaged));
                    assert!(counts_after == counts && work_after == work);
                    tally.mark(!short, &format!("refusal {number}"));
                    tally.mark(short, "short buffers");
                }
            }
        }
    }
    let refusals = [1, 2, 3, 4, 5, 6, 7, 8, 9, 10].map(|number| format!("refusal {number}"));
    tally.finish(&refusals);
    tally.finish(&["short buffers"]);
}

/// Short buffers are refused, and stay as they are.
#[test]
fn short_buffers() {
    let mut rng = Rng::new(3);
    for seed in 0..2_000 {
        let text = reference::write(&gen::file(seed));
        let (few, short) = match seed % 3 {
            0 => (rng.below(16), WORK),
            1 => (16, rng.below(WORK)),
            _ => (rng.below(16), rng.below(WORK)),
        };
        let counts = random_counts(&mut rng, 16);
        let work = random_work(&mut rng, WORK);
        let (mut counts_after, mut work_after) = (counts.clone(), work.clone());
        let answer = evaluate(&text, &mut counts_after[..few], &mut work_after[..short]);
        assert_eq!(answer, 11 << 16);
        assert!(counts_after == counts && work_after == work);
    }
}

/// The answer for every candidate of a text, and the rows of every relation.
fn all(text: &str) -> Vec<(u32, Vec<Rows>)> {
    let file = accept(text);
    let mut rng = Rng::new(4);
    let candidate = |k| {
        let database = candidate_database(&file.syntax, k);
        evaluated(&mut rng, text.as_bytes(), &file, &database)
    };
    (0..file.candidates).map(candidate).collect()
}

fn answers(text: &str) -> Vec<u32> {
    all(text).into_iter().map(|(answer, _)| answer).collect()
}

/// Views with exists, made by hand with their rows.
#[test]
fn rows_with_exists() {
    let mut rng = Rng::new(5);
    for (view, cells, expected) in exists::ROWS {
        let text = exists::with_view(view);
        let file = accept(&text);
        let database = database(&file.syntax, cells);
        let (_, rows) = evaluated(&mut rng, text.as_bytes(), &file, &database);
        assert_eq!(rows[2], *expected, "{view}, {cells:?}");
    }
}

#[test]
fn m1_m2_a_view_of_a_view() {
    assert_eq!(answers(EXAMPLE), [0, 0, 0, 0, 0, 0, 0, 0, 0, 1, 1, 1, 1]);
    assert_eq!(answers(&EXAMPLE.replace("070200", "070201")), [0; 13]);
}

#[test]
fn m3_rounding() {
    for (value, rounded) in ROUNDED {
        let rows = vec![vec![vec![0]], vec![vec![rounded]]];
        assert_eq!(all(&rounding(value)), [(1, rows)]);
    }
}

#[test]
fn m4_bags() {
    let rows = [2, 1, 2, 1, 3, 1, 1].map(|times| vec![vec![5]; times]);
    assert_eq!(all(&bags()), [(1, rows.to_vec())]);
}

#[test]
fn m5_negative_of_where_true() {
    assert_eq!(answers(&where_true("07 01 00")), [1; 16]);
    assert_eq!(answers(&where_true("07 01 01")), [0; 16]);
}

#[test]
fn m6_no_rows() {
    for goal in ["07 01 00", "07 01 01"] {
        assert_eq!(all(&no_rows(goal)), [(0, vec![vec![], vec![]])]);
    }
}

#[test]
fn m7_equal_keys() {
    for (key, answer) in [("01", 0), ("00", 1)] {
        let rows = vec![vec![vec![4]; 2]; 2];
        assert_eq!(all(&equal_rows(key)), [(answer, rows)]);
    }
}

#[test]
fn m8_having_on_the_group() {
    let group = |a, b, sums| vec![vec![vec![a], vec![b]], sums];
    let expected = [
        (0, group(50, 50, vec![])),
        (1, group(50, 51, vec![vec![101]])),
        (1, group(51, 50, vec![vec![101]])),
        (1, group(51, 51, vec![vec![102]])),
    ];
    assert_eq!(all(&having()), expected);
}

#[test]
fn m9_no_group_without_members() {
    let all = all(&no_members());
    assert_eq!(all.len(), 16);
    assert!(all
        .iter()
        .all(|(answer, rows)| *answer == 0 && rows[1].is_empty()));
}

//! Random files and damaged texts: round trips, the two searches against each other, ranges.

mod common;

use reference::candidates::{candidate, candidate_database, cells};
use reference::eval::relations;
use reference::gen::{self, exists_marks, Rng, EXISTS_MARKS};
use reference::look::{is_case, WORK};
use reference::search::Search;
use reference::syntax::{Cond, Expr, Parts, View};
use reference::{plain_look, read, report, text, write, Answer, File};

const FILES: u64 = 20_000;

#[test]
fn reading_gives_back_what_was_written() {
    for seed in 0..FILES {
        let file = gen::file(seed);
        assert_eq!(read(&write(&file)).as_ref(), Ok(&file), "seed {seed}");
    }
}

#[test]
fn the_same_seed_gives_the_same_file() {
    for seed in 0..100 {
        assert_eq!(gen::file(seed), gen::file(seed));
        let text = write(&gen::file(seed));
        assert_eq!(gen::damage(&text, seed), gen::damage(&text, seed));
    }
}

/// What an accepted text says is what its file's text says: the layout has no two forms.
#[test]
fn accepted_texts_are_the_texts_of_their_files() {
    let mut accepted = 0;
    for seed in 0..FILES {
        let damaged = gen::damage(&write(&gen::file(seed % 500)), seed);
        if let Ok(file) = read(&damaged) {
            assert_eq!(write(&file), damaged, "seed {seed}");
            accepted += 1;
        }
    }
    assert!(accepted > 1000);
}

#[test]
fn candidates_and_cells_correspond() {
    for seed in 0..2_000 {
        let file = gen::file(seed);
        for k in [0, file.candidates / 2, file.candidates - 1] {
            let cells = cells(&file.syntax, k);
            assert_eq!(cells.len(), file.syntax.cells());
            assert_eq!(candidate(&file.syntax, &cells), k);
        }
        let all_high = cells(&file.syntax, file.candidates - 1);
        let tables = file.syntax.tables.iter();
        let highs: Vec<i16> = tables
            .flat_map(|table| {
                (0..table.rows).flat_map(|_| table.columns.iter().map(|column| column.hi))
            })
            .collect();
        assert_eq!(all_high, highs);
    }
}

/// Every row lies within the ranges worked out, and there are no more than the row bound.
#[test]
fn rows_keep_their_bounds() {
    let mut rng = Rng::new(1);
    for seed in 0..5_000 {
        let file = gen::file(seed);
        for _ in 0..8 {
            let k = rng.bits() % file.candidates;
            let rows = relations(&file.syntax, &candidate_database(&file.syntax, k));
            for (relation, rows) in rows.iter().enumerate() {
                assert!(
                    rows.len() as u64 <= file.row_bounds[relation],
                    "seed {seed}"
                );
                for row in rows {
                    let ranges = &file.ranges[relation];
                    assert_eq!(row.len(), ranges.len());
                    assert!(row
                        .iter()
                        .zip(ranges)
                        .all(|(value, range)| range.holds(*value)));
                }
            }
        }
    }
}

#[test]
fn the_fast_search_finds_exactly_the_cases() {
    let mut work = vec![7; WORK];
    let (mut with, mut without, mut exists) = (0, 0, 0);
    for seed in 0..4_000 {
        let file = gen::file(seed);
        exists += u64::from(file.syntax.has_exists());
        let search = Search::new(&file);
        let cases: Vec<u64> = (0..file.candidates)
            .filter(|&k| is_case(&file, k))
            .collect();
        assert_eq!(
            search.count_cases(0, file.candidates, &mut work),
            cases.len() as u64
        );
        let first = search.first_case(0, file.candidates, &mut work);
        assert_eq!(first, cases.first().copied(), "seed {seed}");
        if cases.is_empty() {
            without += 1;
        } else {
            with += 1;
        }
    }
    println!("{with} files with a case, {without} without, {exists} with exists");
    assert!(with > 500 && without > 500 && exists > 1_000);
}

#[test]
fn mixed_files_have_cases_after_others() {
    let mut work = vec![0; WORK];
    for seed in 0..1_000 {
        let file = gen::mixed_file(seed);
        let first = (0..file.candidates).find(|&k| is_case(&file, k));
        assert!(first.is_some_and(|k| k > 0), "seed {seed}");
        let found = Search::new(&file).first_case(0, file.candidates, &mut work);
        assert_eq!(found, first, "seed {seed}");
    }
}

/// The program prints the first case, told here by looks with the plain evaluator.
#[test]
fn reports_agree_with_plain_looks() {
    for seed in 0..2_000 {
        let written = write(&gen::file(seed));
        let text = if seed % 4 == 0 {
            gen::damage(&written, seed)
        } else {
            written
        };
        let mut work = vec![0; WORK];
        let mut instance = vec![0; 512];
        if read(&text).is_ok_and(|file| file.candidates > 1 << 14) {
            continue;
        }
        let frames = match plain_look(&text, 0, u64::MAX, &mut work, &mut instance) {
            Answer::Case(k) => {
                let file = read(&text).unwrap();
                let mut values = instance.iter();
                let mut frames = vec![vec![0x80, 0, (k >> 16) as u8, (k >> 8) as u8, k as u8]];
                for (number, table) in file.syntax.tables.iter().enumerate() {
                    let mut frame = vec![0x81, number as u8, table.rows];
                    for value in values
                        .by_ref()
                        .take(usize::from(table.rows) * table.columns.len())
                    {
                        frame.extend([(value >> 8) as u8, *value as u8]);
                    }
                    frames.push(frame);
                }
                frames
            }
            Answer::NoCase => vec![vec![0x82]],
            Answer::Refused { number, line } => {
                vec![vec![0x8f, number, (line >> 8) as u8, line as u8]]
            }
            Answer::Spent(next) => panic!("spent at {next}"),
        };
        assert_eq!(report(&text), text::lines(&frames), "seed {seed}");
    }
}

/// What random files have, beside [`EXISTS_MARKS`].
const WANTED: [&str; 45] = [
    "1 table",
    "2 tables",
    "3 tables",
    "4 tables",
    "key",
    "no key",
    "foreign key",
    "self reference",
    "16 relations",
    "basic",
    "aggregate",
    "union",
    "intersection",
    "negative basic",
    "negative aggregate",
    "negative union",
    "negative intersection",
    "positive basic",
    "positive aggregate",
    "positive union",
    "positive intersection",
    "view of a view",
    "frame of 110 bytes or more",
    "no grouping",
    "4 grouping columns",
    "8 columns",
    "3 from items",
    "row bound 64",
    "no cells",
    "00",
    "01",
    "02",
    "03",
    "04",
    "05",
    "06",
    "07",
    "10",
    "11",
    "12",
    "13",
    "14",
    "15",
    "16",
    "17",
];

/// The generator meets every kind of view, every token, and every shape the rules allow.
#[test]
fn random_files_are_of_every_kind() {
    let mut seen = std::collections::BTreeMap::new();
    for seed in 0..5_000 {
        let file = gen::file(seed);
        let exists = exists_marks(&file.syntax).into_iter().map(str::to_owned);
        for mark in marks(&file).into_iter().chain(exists) {
            *seen.entry(mark).or_insert(0) += 1;
        }
    }
    for (mark, count) in &seen {
        println!("{count:6} {mark}");
    }
    for mark in WANTED.into_iter().chain(EXISTS_MARKS) {
        assert!(seen.get(mark).is_some_and(|&count| count >= 10), "{mark}");
    }
    // At least a third of the files with a where condition have an exists.
    assert!(3 * seen["exists"] >= seen["where"]);
}

fn marks(file: &File) -> Vec<String> {
    let syntax = &file.syntax;
    let mut marks: Vec<String> = Vec::new();
    let mut mark = |condition: bool, name: &str| {
        if condition && !marks.iter().any(|other| other == name) {
            marks.push(name.to_owned());
        }
    };
    let tables = syntax.tables.len();
    mark(tables == 1, "1 table");
    mark(tables > 1, &format!("{tables} tables"));
    mark(syntax.tables.iter().any(|table| table.key_mask != 0), "key");
    mark(
        syntax.tables.iter().any(|table| table.key_mask == 0),
        "no key",
    );
    mark(!syntax.keys.is_empty(), "foreign key");
    mark(
        syntax.keys.iter().any(|key| key.child == key.parent),
        "self reference",
    );
    mark(file.row_bounds.len() == 16, "16 relations");
    mark(file.row_bounds[tables..].contains(&64), "row bound 64");
    mark(syntax.cells() == 0, "no cells");
    let lines = write(file);
    let long = lines
        .split(|byte| *byte == b'\n')
        .any(|line| line.len() >= 220);
    mark(long, "frame of 110 bytes or more");
    let sign = if syntax.goal.negative {
        "negative"
    } else {
        "positive"
    };
    for (at, view) in syntax.views.iter().enumerate() {
        let name = match view {
            View::Basic(_) => "basic",
            View::Aggregate(_) => "aggregate",
            View::Union(..) => "union",
            View::Intersection(..) => "intersection",
        };
        mark(true, name);
        mark(
            usize::from(syntax.goal.view) == tables + at,
            &format!("{sign} {name}"),
        );
        let (from, select, conditions) = match view {
            View::Basic(basic) => (&basic.from, &basic.select, vec![&basic.condition]),
            View::Aggregate(grouped) => {
                mark(grouped.grouping.is_empty(), "no grouping");
                mark(grouped.grouping.len() == 4, "4 grouping columns");
                (
                    &grouped.from,
                    &grouped.select,
                    vec![&grouped.condition, &grouped.having],
                )
            }
            _ => continue,
        };
        mark(true, "where");
        mark(
            from.iter().any(|relation| usize::from(*relation) >= tables),
            "view of a view",
        );
        mark(from.len() == 3, "3 from items");
        mark(select.len() == 8, "8 columns");
        select.iter().for_each(|expr| expr_tokens(expr, &mut mark));
        conditions
            .iter()
            .for_each(|condition| cond_tokens(condition, &mut mark));
    }
    marks
}

fn expr_tokens(expr: &Expr, mark: &mut impl FnMut(bool, &str)) {
    let token = match expr {
        Expr::Constant(_) => "00",
        Expr::Column(_) => "01",
        Expr::Sum(..) => "02",
        Expr::Difference(..) => "03",
        Expr::Product(..) => "04",
        Expr::Nearest(..) => "05",
        Expr::If(..) => "06",
        Expr::Aggregate(..) => "07",
    };
    mark(true, token);
    tokens(expr.parts(), mark);
}

fn cond_tokens(condition: &Cond, mark: &mut impl FnMut(bool, &str)) {
    let token = match condition {
        Cond::True => "10",
        Cond::Equal(..) => "11",
        Cond::Less(..) => "12",
        Cond::LessOrEqual(..) => "13",
        Cond::Not(..) => "14",
        Cond::And(..) => "15",
        Cond::Or(..) => "16",
        Cond::Exists(..) => "17",
    };
    mark(true, token);
    tokens(condition.parts(), mark);
}

fn tokens(parts: Parts, mark: &mut impl FnMut(bool, &str)) {
    parts.conds.iter().for_each(|it| cond_tokens(it, mark));
    parts.exprs.iter().for_each(|it| expr_tokens(it, mark));
}

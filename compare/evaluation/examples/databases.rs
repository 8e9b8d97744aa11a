//! Databases of rule files with the rows of every relation and the verdict, as the proved library
//! gives them, in plain lines for `tools/outside/check.py`:
//!
//!     databases SEED FILES DATABASES [PATH ...]
//!
//! First the rule files at the paths, then so many random ones. A file is `file NAME` and a `line`
//! for each line of its text. A refused one has `refused NUMBER LINE`. Else each of its databases
//! is `database K`, `cells` with all cells, a `row` for each row of each relation, the relation's
//! number first, and `verdict` with 1 for a case and 0 for none.

use evaluation::{evaluate, position};
use reference::candidates::{candidate_database, cells};
use reference::cases::is_valid;
use reference::gen::{self, Rng, Size};
use reference::look::WORK;
use reference::search::Search;
use reference::syntax::View;
use reference::{File, Syntax};
use std::collections::BTreeSet;
use std::fmt::Display;
use std::io::{self, BufWriter, Write};

/// How many candidates are searched for a first case.
const SEARCHED: u64 = 1 << 16;
/// How many draws may look for a valid database.
const DRAWS: usize = 50;

fn main() -> io::Result<()> {
    let arguments: Vec<String> = std::env::args().skip(1).collect();
    let number = |at: usize| arguments.get(at).and_then(|text| text.parse::<u64>().ok());
    let (Some(seed), Some(files), Some(databases)) = (number(0), number(1), number(2)) else {
        eprintln!("databases SEED FILES DATABASES [PATH ...]");
        std::process::exit(2);
    };
    let mut out = BufWriter::new(io::stdout().lock());
    let mut rng = Rng::new(seed);
    for path in &arguments[3..] {
        show(&mut out, &mut rng, path, &std::fs::read(path)?, databases)?;
    }
    for at in seed..seed + files {
        let text = reference::write(&random_file(at));
        show(
            &mut out,
            &mut rng,
            &format!("random-{at}"),
            &text,
            databases,
        )?;
    }
    out.flush()
}

/// Plain files, files with cases after others, and files with many candidates; in each of these,
/// goals of every kind and sign in turn, and exists in a third.
fn random_file(seed: u64) -> File {
    let mut rng = Rng::new(seed);
    loop {
        let drawn = rng.bits();
        let file = match seed % 3 {
            0 => gen::file(drawn),
            1 => gen::mixed_file(drawn),
            _ => gen::file_of_size(drawn, Size::LARGE),
        };
        let exists = seed / 24 % 3 == 1;
        if goal_kind(&file.syntax) == Some(seed / 3 % 8) && has_exists(&file.syntax) == exists {
            return file;
        }
    }
}

fn has_exists(syntax: &Syntax) -> bool {
    let mut conditions = syntax.views.iter().filter_map(View::condition);
    conditions.any(|it| !it.looked_into().is_empty())
}

/// The goal view's kind and the sign, as a number below 8.
fn goal_kind(syntax: &Syntax) -> Option<u64> {
    let kind = match syntax.view(usize::from(syntax.goal.view))? {
        View::Basic(_) => 0,
        View::Aggregate(_) => 1,
        View::Union(..) => 2,
        View::Intersection(..) => 3,
    };
    Some(2 * kind + u64::from(syntax.goal.negative))
}

/// Writes a text and some of its databases.
fn show(
    out: &mut impl Write,
    rng: &mut Rng,
    name: &str,
    text: &[u8],
    databases: u64,
) -> io::Result<()> {
    writeln!(out, "file {name}")?;
    for line in String::from_utf8_lossy(text).lines() {
        writeln!(out, "line {line}")?;
    }
    match reference::read(text) {
        Err(refusal) => writeln!(out, "refused {} {}", refusal.number, refusal.line),
        Ok(file) => chosen(rng, &file, databases)
            .into_iter()
            .try_for_each(|k| show_database(out, text, &file, k)),
    }
}

/// The first candidate, the last, the first case, and some others, valid ones where found.
fn chosen(rng: &mut Rng, file: &File, others: u64) -> BTreeSet<u64> {
    let end = file.candidates.min(SEARCHED);
    let first_case = Search::new(file).first_case(0, end, &mut vec![0; WORK]);
    let ends = [0, file.candidates - 1].into_iter();
    let others = (0..others).map(|_| drawn(rng, file));
    ends.chain(first_case).chain(others).collect()
}

/// A valid candidate, or any if some draws give none.
fn drawn(rng: &mut Rng, file: &File) -> u64 {
    let valid = |k: &u64| is_valid(&file.syntax, &candidate_database(&file.syntax, *k));
    let mut draws = (0..DRAWS).map(|_| rng.bits() % file.candidates);
    let first = draws.next().unwrap_or(0);
    if valid(&first) {
        return first;
    }
    draws.find(valid).unwrap_or(first)
}

/// Evaluates one candidate by the proved library and writes what it left in the buffers.
fn show_database(out: &mut impl Write, text: &[u8], file: &File, k: u64) -> io::Result<()> {
    let mut counts = [0; 16];
    let mut work = vec![0; WORK];
    let tables = candidate_database(&file.syntax, k).tables;
    for (table, rows) in tables.iter().enumerate() {
        for (at, row) in rows.iter().enumerate() {
            for (column, &cell) in row.iter().enumerate() {
                work[position(table, at, column)] = cell as i32;
            }
        }
    }
    let verdict = evaluate(text, &mut counts, &mut work);
    writeln!(out, "database {k}")?;
    writeln!(out, "cells{}", spaced(&cells(&file.syntax, k)))?;
    for (relation, ranges) in file.ranges.iter().enumerate() {
        for row in 0..usize::from(counts[relation]) {
            let at = position(relation, row, 0);
            writeln!(
                out,
                "row {relation}{}",
                spaced(&work[at..at + ranges.len()])
            )?;
        }
    }
    writeln!(out, "verdict {verdict}")
}

/// The values, a space before each.
fn spaced(values: &[impl Display]) -> String {
    values.iter().map(|value| format!(" {value}")).collect()
}

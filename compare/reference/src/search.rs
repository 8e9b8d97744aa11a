//! The search written for speed: the same walk over the candidates, with nothing allocated for a
//! candidate.
//!
//! The file is prepared once. The cells are stepped on in the place where the rows of their tables
//! are read, the last cell first. Keys and foreign keys are tried before any view, and only the
//! relations the goal depends on are worked out. All values fit into 32 bits by refusal 9.

mod prepare;
mod values;
mod views;

use crate::candidates;
use crate::syntax::{Syntax, OPEN_ITEMS, RELATIONS};

/// "Each relation's rows go into its own stretch of the work area": 64 rows of 8 columns.
pub const STRETCH: usize = 64 * 8;

/// Where the row of each from item that is open begins.
type At = [usize; OPEN_ITEMS];

/// A file prepared for searching.
pub struct Search {
    cells: Vec<Cell>,
    keys: Vec<Key>,
    references: Vec<Reference>,
    /// The number of rows of each table.
    table_rows: [usize; RELATIONS],
    /// The number of columns of each relation.
    widths: [usize; RELATIONS],
    syntax: Syntax,
    /// The views to be worked out for each valid candidate, in rising order.
    wanted: Vec<usize>,
}

/// A cell: its place in the work area and its column.
struct Cell {
    at: usize,
    lo: i32,
    hi: i32,
}

/// A keyed table.
struct Key {
    table: usize,
    columns: Vec<usize>,
}

/// A foreign key.
struct Reference {
    child: usize,
    parent: usize,
    pairs: Vec<(usize, usize)>,
}

/// Memory used again for each candidate.
struct Scratch {
    /// The number of rows of each relation.
    counts: [usize; RELATIONS],
    kept: Vec<At>,
    members: Vec<At>,
}

impl Search {
    /// The smallest case k with start ≤ k < end, for end at most N. `work` has at least 8,192
    /// numbers and holds rows afterwards.
    pub fn first_case(&self, start: u64, end: u64, work: &mut [i32]) -> Option<u64> {
        let mut found = None;
        self.walk(start, end, work, |k| {
            found = Some(k);
            true
        });
        found
    }

    /// The number of cases k with start ≤ k < end, for end at most N.
    pub fn count_cases(&self, start: u64, end: u64, work: &mut [i32]) -> u64 {
        let mut cases = 0;
        self.walk(start, end, work, |_| {
            cases += 1;
            false
        });
        cases
    }

    /// Meets the cases in turn until one is enough.
    fn walk(&self, start: u64, end: u64, work: &mut [i32], mut meet: impl FnMut(u64) -> bool) {
        // Without cells no table has a row, and there is no case.
        if start >= end || self.cells.is_empty() {
            return;
        }
        let first = candidates::cells(&self.syntax, start);
        for (cell, value) in self.cells.iter().zip(first) {
            work[cell.at] = i32::from(value);
        }
        let mut scratch = Scratch {
            counts: self.table_rows,
            kept: Vec::with_capacity(64),
            members: Vec::with_capacity(64),
        };
        for k in start..end {
            if self.valid(work) && self.shown(work, &mut scratch) && meet(k) {
                return;
            }
            self.step(work);
        }
    }

    /// The next candidate; after the last comes the first.
    fn step(&self, work: &mut [i32]) {
        for cell in self.cells.iter().rev() {
            if work[cell.at] < cell.hi {
                work[cell.at] += 1;
                return;
            }
            work[cell.at] = cell.lo;
        }
    }

    fn row(&self, relation: usize, row: usize) -> usize {
        relation * STRETCH + row * self.widths[relation]
    }

    fn valid(&self, work: &[i32]) -> bool {
        self.keys.iter().all(|key| self.key_holds(key, work))
            && self
                .references
                .iter()
                .all(|key| self.reference_holds(key, work))
    }

    fn key_holds(&self, key: &Key, work: &[i32]) -> bool {
        (1..self.table_rows[key.table]).all(|upper| {
            let a = self.row(key.table, upper);
            (0..upper).all(|lower| {
                let b = self.row(key.table, lower);
                key.columns
                    .iter()
                    .any(|column| work[a + column] != work[b + column])
            })
        })
    }

    fn reference_holds(&self, key: &Reference, work: &[i32]) -> bool {
        (0..self.table_rows[key.child]).all(|child| {
            let a = self.row(key.child, child);
            (0..self.table_rows[key.parent]).any(|parent| {
                let b = self.row(key.parent, parent);
                key.pairs
                    .iter()
                    .all(|(from, to)| work[a + from] == work[b + to])
            })
        })
    }
}

//! Preparing a file, once.

use super::{Cell, Key, Reference, Search, STRETCH};
use crate::syntax::{File, Syntax, View, RELATIONS};

impl Search {
    /// Prepares a file.
    pub fn new(file: &File) -> Search {
        let syntax = file.syntax.clone();
        let mut cells = Vec::new();
        let mut keys = Vec::new();
        let mut table_rows = [0; RELATIONS];
        let mut widths = [0; RELATIONS];
        for (width, ranges) in widths.iter_mut().zip(&file.ranges) {
            *width = ranges.len();
        }
        for (number, table) in syntax.tables.iter().enumerate() {
            table_rows[number] = usize::from(table.rows);
            for row in 0..usize::from(table.rows) {
                for (place, column) in table.columns.iter().enumerate() {
                    cells.push(Cell {
                        at: number * STRETCH + row * widths[number] + place,
                        lo: i32::from(column.lo),
                        hi: i32::from(column.hi),
                    });
                }
            }
            if table.key_mask != 0 && table.rows > 1 {
                keys.push(Key {
                    table: number,
                    columns: table.key_columns(),
                });
            }
        }
        let references = syntax
            .keys
            .iter()
            .map(|key| Reference {
                child: usize::from(key.child),
                parent: usize::from(key.parent),
                pairs: key
                    .pairs
                    .iter()
                    .map(|&(from, to)| (usize::from(from), usize::from(to)))
                    .collect(),
            })
            .collect();
        let wanted = wanted(&syntax);
        Search {
            cells,
            keys,
            references,
            table_rows,
            widths,
            syntax,
            wanted,
        }
    }
}

/// The views whose rows the goal needs, the goal view itself left out where a row of it can be
/// told without writing it down.
fn wanted(syntax: &Syntax) -> Vec<usize> {
    fn rows(syntax: &Syntax, relation: u8, marks: &mut [bool]) {
        let Some(view) = syntax.view(usize::from(relation)) else {
            return;
        };
        marks[usize::from(relation)] = true;
        view.reads()
            .iter()
            .for_each(|&lower| rows(syntax, lower, marks));
    }
    fn shown(syntax: &Syntax, relation: u8, negative: bool, marks: &mut [bool]) {
        match syntax.view(usize::from(relation)) {
            Some(View::Union(left, right)) => {
                shown(syntax, *left, negative, marks);
                shown(syntax, *right, negative, marks);
            }
            Some(View::Intersection(left, right)) if negative => {
                shown(syntax, *left, negative, marks);
                shown(syntax, *right, negative, marks);
            }
            Some(view) => view
                .reads()
                .iter()
                .for_each(|&lower| rows(syntax, lower, marks)),
            None => {}
        }
    }
    let mut marks = [false; RELATIONS];
    shown(syntax, syntax.goal.view, syntax.goal.negative, &mut marks);
    (0..RELATIONS).filter(|&relation| marks[relation]).collect()
}

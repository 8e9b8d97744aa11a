//! Candidates: "The cells of tables, rows, columns, in that order, are the digits of a candidate
//! number, first cell most significant, digit = value - lo."

use crate::eval::{Database, Row};
use crate::syntax::{Column, Syntax, Table};

/// The column of every cell, first cell first.
pub fn cell_columns(tables: &[Table]) -> Vec<Column> {
    tables
        .iter()
        .flat_map(|table| (0..table.rows).flat_map(|_| table.columns.iter().copied()))
        .collect()
}

/// "The number N of candidates is the product of the column sizes, 1 with no cells": one factor for
/// each cell. None where it does not fit into 64 bits.
pub fn number(tables: &[Table]) -> Option<u64> {
    cell_columns(tables)
        .iter()
        .try_fold(1u64, |product, column| product.checked_mul(column.size()))
}

/// The cells of candidate k, for k below N.
pub fn cells(syntax: &Syntax, k: u64) -> Vec<i16> {
    let columns = cell_columns(&syntax.tables);
    let mut rest = k;
    let mut cells: Vec<i16> = columns
        .iter()
        .rev()
        .map(|column| {
            let digit = rest % column.size();
            rest /= column.size();
            (i64::from(column.lo) + digit as i64) as i16
        })
        .collect();
    cells.reverse();
    cells
}

/// The number of the candidate with these cells, each within its column.
pub fn candidate(syntax: &Syntax, cells: &[i16]) -> u64 {
    cell_columns(&syntax.tables)
        .iter()
        .zip(cells)
        .fold(0, |number, (column, &cell)| {
            number * column.size() + (i64::from(cell) - i64::from(column.lo)) as u64
        })
}

/// The database with these cells.
pub fn database(syntax: &Syntax, cells: &[i16]) -> Database {
    let mut values = cells.iter().map(|&cell| i64::from(cell));
    let tables = syntax
        .tables
        .iter()
        .map(|table| {
            (0..table.rows)
                .map(|_| values.by_ref().take(table.columns.len()).collect::<Row>())
                .collect()
        })
        .collect();
    Database { tables }
}

/// The database of candidate k, for k below N.
pub fn candidate_database(syntax: &Syntax, k: u64) -> Database {
    database(syntax, &cells(syntax, k))
}

//! Validity and cases: "A database is valid when ...", "It is a case only if ...".

use crate::eval::{self, basic_rows, grouped_rows, Database, Row, Rows};
use crate::syntax::{Basic, File, ForeignKey, Grouped, Syntax, Table, View};

/// Whether a database is valid.
///
/// Every table and every foreign key of the file counts, whatever the goal reads.
pub fn is_valid(syntax: &Syntax, database: &Database) -> bool {
    let tables = || syntax.tables.iter().zip(&database.tables);
    tables().all(|(table, rows)| in_columns(table, rows))
        && tables().all(|(table, rows)| key_holds(table, rows))
        && syntax
            .keys
            .iter()
            .all(|key| foreign_key_holds(key, database))
}

/// "each value lies in its column's lo..hi".
fn in_columns(table: &Table, rows: &Rows) -> bool {
    rows.iter().all(|row| {
        let mut cells = table.columns.iter().zip(row);
        cells.all(|(column, &value)| i64::from(column.lo) <= value && value <= i64::from(column.hi))
    })
}

/// "two rows of a keyed table differ in some key column".
fn key_holds(table: &Table, rows: &Rows) -> bool {
    let key = table.key_columns();
    let differ = |a: &Row, b: &Row| key.iter().any(|&column| a[column] != b[column]);
    key.is_empty()
        || rows
            .iter()
            .enumerate()
            .all(|(at, a)| rows[..at].iter().all(|b| differ(a, b)))
}

/// "for each child row some parent row agrees on all pairs (the same table may be both)": a row may
/// be its own parent.
fn foreign_key_holds(key: &ForeignKey, database: &Database) -> bool {
    let agree = |child: &Row, parent: &Row| {
        let mut pairs = key.pairs.iter();
        pairs.all(|&(from, to)| child[usize::from(from)] == parent[usize::from(to)])
    };
    let parents = &database.tables[usize::from(key.parent)];
    database.tables[usize::from(key.child)]
        .iter()
        .all(|child| parents.iter().any(|parent| agree(child, parent)))
}

/// "Positive: the goal view has a row", said of any relation.
pub fn is_positive(relations: &[Rows], relation: usize) -> bool {
    !relations[relation].is_empty()
}

/// "Negative: ...", said of any view. A set view asks its operands, each by its own kind; below a
/// basic or an aggregate view nothing is negated ("Views below the negated one keep their
/// meaning").
pub fn is_negative(syntax: &Syntax, relations: &[Rows], relation: usize) -> bool {
    let operand = |number: u8| is_negative(syntax, relations, usize::from(number));
    match syntax.view(relation) {
        None => false,
        Some(View::Basic(basic)) => {
            let negated = Basic {
                condition: basic.condition.negated(),
                ..basic.clone()
            };
            !basic_rows(relations, &negated).is_empty()
        }
        Some(View::Aggregate(grouped)) => {
            let (w, h) = (&grouped.condition, &grouped.having);
            [
                (w.negated(), h.clone()),
                (w.clone(), h.negated()),
                (w.negated(), h.negated()),
            ]
            .into_iter()
            .any(|(condition, having)| {
                let changed = Grouped {
                    condition,
                    having,
                    ..grouped.clone()
                };
                !grouped_rows(relations, &changed).is_empty()
            })
        }
        Some(View::Union(left, right)) => operand(*left) && operand(*right),
        Some(View::Intersection(left, right)) => operand(*left) || operand(*right),
    }
}

/// Whether a database is a case of the file's goal: "only if valid and some table has a row".
pub fn is_case(file: &File, database: &Database) -> bool {
    let syntax = &file.syntax;
    if !is_valid(syntax, database) || database.tables.iter().all(|rows| rows.is_empty()) {
        return false;
    }
    let relations = eval::relations(syntax, database);
    let view = usize::from(syntax.goal.view);
    if syntax.goal.negative {
        is_negative(syntax, &relations, view)
    } else {
        is_positive(&relations, view)
    }
}

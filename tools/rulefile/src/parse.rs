//! A readable text to the syntax of a rule file.
//!
//! Refused here are a wrong form or order, names that stand for nothing, and lists and numbers too
//! long for their fields. The other rules of the format are left to its reader.

use crate::cursor::Cursor;
use crate::express::{cond, expr};
use crate::scope::{column, Relations, Scope};
use crate::token::tokens;
use crate::Fault;
use reference::syntax::{
    Basic, Column, Cond, Expr, ForeignKey, Goal, Grouped, Place, Syntax, Table, View,
};

const ORDER: &str = "the order is tables, foreign keys, views, one goal, nothing after it";

/// What a text says.
#[derive(Clone, Debug, PartialEq, Eq)]
pub struct Parsed {
    /// The syntax.
    pub syntax: Syntax,
    /// For each frame, the line on which its statement begins.
    pub lines: Vec<usize>,
}

/// The syntax of a text, or the first thing wrong with it.
pub fn parse(text: &str) -> Result<Parsed, Fault> {
    let tokens = tokens(text)?;
    let mut statements = Statements::new(Cursor::new(&tokens));
    while statements.cursor.peek().is_some() {
        statements.statement()?;
    }
    statements.finish()
}

/// What has been read so far.
struct Statements<'a> {
    cursor: Cursor<'a>,
    tables: Vec<Table>,
    keys: Vec<ForeignKey>,
    views: Vec<View>,
    goal: Option<Goal>,
    relations: Relations,
    lines: Vec<usize>,
}

impl<'a> Statements<'a> {
    fn new(cursor: Cursor<'a>) -> Self {
        Statements {
            cursor,
            tables: Vec::new(),
            keys: Vec::new(),
            views: Vec::new(),
            goal: None,
            relations: Relations::default(),
            lines: Vec::new(),
        }
    }

    fn finish(self) -> Result<Parsed, Fault> {
        let Some(goal) = self.goal else {
            return self.cursor.fault("the text ends without a goal");
        };
        let syntax = Syntax {
            tables: self.tables,
            keys: self.keys,
            views: self.views,
            goal,
        };
        let lines = self.lines;
        Ok(Parsed { syntax, lines })
    }

    fn statement(&mut self) -> Result<(), Fault> {
        self.lines.push(self.cursor.line());
        self.in_order()?;
        if self.cursor.keyword("TABLE") {
            self.table()?;
        } else if self.cursor.keyword("FOREIGN") {
            self.key()?;
        } else if self.cursor.keyword("VIEW") {
            self.view()?;
        } else if self.cursor.keyword("GOAL") {
            self.goal()?;
        } else {
            return self.cursor.due("TABLE, FOREIGN KEY, VIEW or GOAL");
        }
        self.cursor.need_symbol(";")
    }

    fn in_order(&self) -> Result<(), Fault> {
        let no_view = self.views.is_empty();
        let late_table = self.cursor.sees("TABLE") && !(no_view && self.keys.is_empty());
        let late_key = self.cursor.sees("FOREIGN") && !no_view;
        if late_table || late_key || self.goal.is_some() {
            return self.cursor.fault(format!("out of order: {ORDER}"));
        }
        Ok(())
    }

    /// The name of the relation that this statement makes.
    fn new_name(&mut self, letter: char) -> Result<(), Fault> {
        let name = format!("{letter}{}", self.relations.columns.len());
        if self.cursor.keyword(&name) {
            return Ok(());
        }
        self.cursor.due(&format!(
            "the name {name} (relations are numbered in turn from 0)"
        ))
    }

    /// What follows `TABLE`.
    fn table(&mut self) -> Result<(), Fault> {
        self.new_name('t')?;
        self.cursor.need_keyword("ROWS")?;
        let rows = self.cursor.number(0, i64::from(u8::MAX))? as u8;
        self.cursor.need_symbol("(")?;
        let mut place = 0;
        let columns = self.cursor.list(4, "columns", |cursor| {
            place += 1;
            table_column(cursor, place - 1)
        })?;
        self.cursor.need_symbol(")")?;
        let marks = columns.iter().enumerate();
        let key_mask = marks.map(|(place, it)| u8::from(it.1) << place).sum();
        let columns: Vec<Column> = columns.into_iter().map(|it| it.0).collect();
        self.relations.tables += 1;
        self.relations.columns.push(columns.len());
        self.tables.push(Table {
            rows,
            key_mask,
            columns,
        });
        Ok(())
    }

    /// What follows `FOREIGN`.
    fn key(&mut self) -> Result<(), Fault> {
        let line = self.cursor.line();
        self.cursor.need_keyword("KEY")?;
        let (child, from) = self.table_columns()?;
        self.cursor.need_keyword("REFERENCES")?;
        let (parent, to) = self.table_columns()?;
        if from.len() != to.len() {
            let what = format!("{} columns refer to {}", from.len(), to.len());
            return Err(Fault { line, what });
        }
        self.keys.push(ForeignKey {
            child,
            parent,
            pairs: from.into_iter().zip(to).collect(),
        });
        Ok(())
    }

    /// A table and some of its columns.
    fn table_columns(&mut self) -> Result<(u8, Vec<u8>), Fault> {
        let table = self.relation("t", "a table such as t0")?;
        let columns = self.relations.columns[usize::from(table)];
        self.cursor.need_symbol("(")?;
        let named = self
            .cursor
            .list(4, "columns", |cursor| column(cursor, columns))?;
        self.cursor.need_symbol(")")?;
        Ok((table, named))
    }

    /// The name of an earlier relation of a kind.
    fn relation(&mut self, letters: &str, due: &str) -> Result<u8, Fault> {
        self.relations.named(&mut self.cursor, letters, due)
    }

    fn earlier_view(&mut self) -> Result<u8, Fault> {
        self.relation("v", "a view such as v1")
    }

    /// What follows `GOAL`.
    fn goal(&mut self) -> Result<(), Fault> {
        let negative = self.cursor.keyword("NEGATIVE");
        if !negative && !self.cursor.keyword("POSITIVE") {
            return self.cursor.due("POSITIVE or NEGATIVE");
        }
        let view = self.earlier_view()?;
        self.goal = Some(Goal { view, negative });
        Ok(())
    }

    /// What follows `VIEW`.
    fn view(&mut self) -> Result<(), Fault> {
        self.new_name('v')?;
        self.cursor.need_keyword("AS")?;
        let (view, columns) = if self.cursor.keyword("SELECT") {
            self.selection()?
        } else {
            self.set()?
        };
        self.views.push(view);
        self.relations.columns.push(columns);
        Ok(())
    }

    /// Two views with `UNION` or `INTERSECT` between them.
    fn set(&mut self) -> Result<(View, usize), Fault> {
        let left = self.relation("v", "SELECT or a view such as v1")?;
        let make = if self.cursor.keyword("UNION") {
            View::Union
        } else if self.cursor.keyword("INTERSECT") {
            View::Intersection
        } else {
            return self.cursor.due("UNION or INTERSECT");
        };
        let right = self.earlier_view()?;
        let columns = self.relations.columns[usize::from(left)];
        Ok((make(left, right), columns))
    }

    /// What follows `SELECT`. The from list is read first, since it gives the names in `SELECT`.
    fn selection(&mut self) -> Result<(View, usize), Fault> {
        let select_at = self.cursor.at;
        self.skip_to_from()?;
        let (from, mut scope) = self.from()?;
        let after = self.cursor.at;
        self.cursor.at = select_at;
        let select = self
            .cursor
            .list(8, "select expressions", |cursor| expr(cursor, &mut scope))?;
        self.cursor.need_keyword("FROM")?;
        self.cursor.at = after;
        let count = select.len();
        Ok((self.clauses(from, &mut scope, select)?, count))
    }

    /// The from list of an exists in `SELECT` is not the view's.
    fn skip_to_from(&mut self) -> Result<(), Fault> {
        let begin = self.cursor.at;
        while !self.cursor.keyword("FROM") {
            if self.cursor.peek().is_none() || self.cursor.symbol(";") {
                self.cursor.at = begin;
                return self.cursor.fault("SELECT without FROM");
            }
            if !self.cursor.exists() {
                self.cursor.at += 1;
            }
        }
        Ok(())
    }

    /// The from list: its relations, and what can be named behind it.
    fn from(&mut self) -> Result<(Vec<u8>, Scope), Fault> {
        let mut from = Vec::new();
        let mut scope = Scope::new(&self.relations);
        loop {
            from.push(scope.open(&mut self.cursor)?);
            if !self.cursor.symbol(",") {
                return Ok((from, scope));
            }
            if from.len() == 3 {
                return self.cursor.fault("there are more than 3 from items");
            }
        }
    }

    /// What follows the from list. A condition left out is `TRUE`; `GROUP BY` makes the view an
    /// aggregate one.
    fn clauses(
        &mut self,
        from: Vec<u8>,
        scope: &mut Scope,
        select: Vec<Expr>,
    ) -> Result<View, Fault> {
        let condition = self.condition("WHERE", scope)?;
        let grouped = self.cursor.keyword("GROUP");
        if !grouped && self.cursor.sees("HAVING") {
            let what = "HAVING needs GROUP BY; with no grouping columns, write GROUP BY ()";
            return self.cursor.fault(what);
        }
        if !grouped {
            return Ok(View::Basic(Basic {
                from,
                condition,
                select,
            }));
        }
        let grouping = self.grouping(scope)?;
        let having = self.condition("HAVING", scope)?;
        Ok(View::Aggregate(Grouped {
            from,
            condition,
            grouping,
            having,
            select,
        }))
    }

    fn condition(&mut self, keyword: &str, scope: &mut Scope) -> Result<Cond, Fault> {
        if self.cursor.keyword(keyword) {
            cond(&mut self.cursor, scope)
        } else {
            Ok(Cond::True)
        }
    }

    /// What follows `GROUP`.
    fn grouping(&mut self, scope: &Scope) -> Result<Vec<Place>, Fault> {
        self.cursor.need_keyword("BY")?;
        if self.cursor.symbol("(") {
            self.cursor.need_symbol(")")?;
            return Ok(Vec::new());
        }
        self.cursor
            .list(4, "grouping columns", |cursor| scope.place(cursor))
    }
}

/// A column of a new table, and whether it is in the key.
fn table_column(cursor: &mut Cursor, place: usize) -> Result<(Column, bool), Fault> {
    let name = format!("c{place}");
    if !cursor.keyword(&name) {
        return cursor.due(&format!(
            "the name {name} (columns are numbered in turn from 0)"
        ));
    }
    let (low, high) = (i64::from(i16::MIN), i64::from(i16::MAX));
    let lo = cursor.number(low, high)? as i16;
    cursor.need_symbol("..")?;
    let hi = cursor.number(low, high)? as i16;
    Ok((Column { lo, hi }, cursor.keyword("KEY")))
}

//! What a text can name at a place: the relations before the statement, and the open from items.

use crate::cursor::Cursor;
use crate::Fault;
use reference::syntax::Place;

/// "at most six in all".
const ITEMS: usize = 6;

/// The relations before a statement.
#[derive(Clone, Default)]
pub struct Relations {
    /// How many of them are tables.
    pub tables: usize,
    /// How many columns each has.
    pub columns: Vec<usize>,
}

impl Relations {
    /// Takes the name of an earlier relation of a kind.
    pub fn named(&self, cursor: &mut Cursor, letters: &str, due: &str) -> Result<u8, Fault> {
        let line = cursor.line();
        let (letter, number) = cursor.numbered(letters, due)?;
        let place = usize::from(number);
        let kind = if place < self.tables { 't' } else { 'v' };
        if place < self.columns.len() && kind == letter {
            return Ok(number);
        }
        let what = format!("no relation {letter}{number} stands before this statement");
        Err(Fault { line, what })
    }
}

/// A from item: its name, and how many columns it has.
type Item = (String, usize);

/// The open from items, those of the view first.
pub struct Scope {
    relations: Relations,
    items: Vec<Item>,
}

impl Scope {
    /// No item is open yet.
    pub fn new(relations: &Relations) -> Scope {
        Scope {
            relations: relations.clone(),
            items: Vec::new(),
        }
    }

    /// Takes a from item such as `t0 a`, which is open from here on, and gives its relation.
    pub fn open(&mut self, cursor: &mut Cursor) -> Result<u8, Fault> {
        let due = "a table or view such as t0 or v1";
        let relation = self.relations.named(cursor, "tv", due)?;
        cursor.keyword("AS");
        let line = cursor.line();
        let name = cursor.free_word("a name such as a for the from item")?;
        if self.items.iter().any(|it| it.0 == name) {
            let what = format!("two from items named `{name}`");
            return Err(Fault { line, what });
        }
        let columns = self.relations.columns[usize::from(relation)];
        self.items.push((name, columns));
        Ok(relation)
    }

    /// Closes the item that was opened last.
    pub fn close(&mut self) {
        self.items.pop();
    }

    /// Whether no further item can be opened.
    pub fn is_full(&self) -> bool {
        self.items.len() >= ITEMS
    }

    /// Takes a column such as `a.c0`.
    pub fn place(&self, cursor: &mut Cursor) -> Result<Place, Fault> {
        let line = cursor.line();
        let name = cursor.free_word("an expression or a condition")?;
        let Some(item) = self.items.iter().position(|it| it.0 == name) else {
            let what = format!("no from item is named `{name}` here");
            return Err(Fault { line, what });
        };
        cursor.need_symbol(".")?;
        let column = column(cursor, self.items[item].1)?;
        let item = item as u8;
        Ok(Place { item, column })
    }
}

/// Takes a column of a relation with so many columns.
pub fn column(cursor: &mut Cursor, columns: usize) -> Result<u8, Fault> {
    let line = cursor.line();
    let (_, column) = cursor.numbered("c", "a column such as c0")?;
    if usize::from(column) < columns {
        return Ok(column);
    }
    let last = columns.saturating_sub(1);
    let what = format!("no column c{column} there: its last is c{last}");
    Err(Fault { line, what })
}

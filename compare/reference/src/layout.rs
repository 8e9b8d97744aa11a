//! The layout of frames: each frame as a list of fields with the limits of each.
//!
//! The writer needs only the values; the limits serve the damage done in [`crate::gen`].

use crate::syntax::{
    Aggregate, Basic, Cond, Expr, ForeignKey, Grouped, Place, Syntax, Table, View,
};
use std::ops::Range;

/// One field of a frame.
#[derive(Clone, Copy, Debug, PartialEq, Eq)]
pub struct Field {
    /// The value, two's complement where the field is signed.
    pub value: i32,
    /// "Sixteen-bit fields are high byte first"; "Every other field is one byte."
    pub wide: bool,
    /// The least value allowed there.
    pub low: i32,
    /// The greatest value allowed there.
    pub high: i32,
}

impl Field {
    /// The bytes of the field; a value too large for it is cut to its low bits.
    pub fn bytes(self) -> Vec<u8> {
        if self.wide {
            (self.value as u16).to_be_bytes().to_vec()
        } else {
            vec![self.value as u8]
        }
    }
}

/// Where an exists stands in its frame: its token, its relation, and its condition.
#[derive(Clone, Debug, PartialEq, Eq)]
pub struct Form {
    /// The place of the frame, from 0.
    pub frame: usize,
    /// The from item that it opens.
    pub item: usize,
    /// Its bytes in the frame.
    pub bytes: Range<usize>,
}

/// The bytes of all frames of a syntax.
pub fn frames(syntax: &Syntax) -> Vec<Vec<u8>> {
    fields(syntax).iter().map(|frame| bytes(frame)).collect()
}

/// The bytes of one frame.
pub fn bytes(frame: &[Field]) -> Vec<u8> {
    frame.iter().flat_map(|field| field.bytes()).collect()
}

/// The fields of all frames of a syntax, "Order: tables, foreign keys, views, one goal".
pub fn fields(syntax: &Syntax) -> Vec<Vec<Field>> {
    laid_out(syntax).0
}

/// Every exists of a syntax, an outer one behind those in it.
pub fn exists_forms(syntax: &Syntax) -> Vec<Form> {
    laid_out(syntax).1
}

fn laid_out(syntax: &Syntax) -> (Vec<Vec<Field>>, Vec<Form>) {
    let mut columns: Vec<usize> = Vec::new();
    let mut frames = Vec::new();
    let mut forms = Vec::new();
    for table in &syntax.tables {
        frames.push(table_fields(table));
        columns.push(table.columns.len());
    }
    for key in &syntax.keys {
        frames.push(key_fields(key, &columns));
    }
    for view in &syntax.views {
        let mut frame = Frame::new(&columns, syntax.tables.len());
        frame.view(view);
        forms.extend(frame.exists.into_iter().map(|(item, bytes)| Form {
            frame: frames.len(),
            item,
            bytes,
        }));
        frames.push(frame.fields);
        columns.push(match view {
            View::Basic(basic) => basic.select.len(),
            View::Aggregate(grouped) => grouped.select.len(),
            View::Union(left, _) | View::Intersection(left, _) => {
                columns.get(usize::from(*left)).copied().unwrap_or(1)
            }
        });
    }
    let mut frame = Frame::new(&columns, syntax.tables.len());
    frame.byte(7, 1, 7);
    frame.view_number(syntax.goal.view);
    frame.byte(i32::from(syntax.goal.negative), 0, 1);
    frames.push(frame.fields);
    (frames, forms)
}

fn table_fields(table: &Table) -> Vec<Field> {
    let columns = table.columns.len() as i32;
    let mut frame = Frame::new(&[], 0);
    frame.byte(1, 1, 7);
    frame.byte(i32::from(table.rows), 0, 8);
    frame.byte(columns, 1, 4);
    frame.byte(i32::from(table.key_mask), 0, (1 << columns) - 1);
    for column in &table.columns {
        let (lo, hi) = (i32::from(column.lo), i32::from(column.hi));
        frame.wide(lo, i32::from(i16::MIN), hi);
        frame.wide(hi, lo, i32::from(i16::MAX));
    }
    frame.fields
}

fn key_fields(key: &ForeignKey, columns: &[usize]) -> Vec<Field> {
    let mut frame = Frame::new(columns, 0);
    frame.byte(2, 1, 7);
    frame.relation(key.child);
    frame.relation(key.parent);
    frame.byte(key.pairs.len() as i32, 1, 4);
    for &(child, parent) in &key.pairs {
        frame.column(key.child, child);
        frame.column(key.parent, parent);
    }
    frame.fields
}

/// The fields of a frame as they are put down.
struct Frame<'a> {
    fields: Vec<Field>,
    /// How many columns each earlier relation has.
    columns: &'a [usize],
    /// The first relation that is a view.
    first_view: usize,
    /// The relations of the from items that are open.
    open: Vec<u8>,
    /// The item that each exists opens, and its bytes.
    exists: Vec<(usize, Range<usize>)>,
}

impl<'a> Frame<'a> {
    fn new(columns: &'a [usize], first_view: usize) -> Frame<'a> {
        Frame {
            fields: Vec::new(),
            columns,
            first_view,
            open: Vec::new(),
            exists: Vec::new(),
        }
    }

    fn byte(&mut self, value: i32, low: i32, high: i32) {
        self.fields.push(Field {
            value,
            wide: false,
            low,
            high,
        });
    }

    fn wide(&mut self, value: i32, low: i32, high: i32) {
        self.fields.push(Field {
            value,
            wide: true,
            low,
            high,
        });
    }

    fn relation(&mut self, relation: u8) {
        self.byte(i32::from(relation), 0, self.columns.len() as i32 - 1);
    }

    fn view_number(&mut self, relation: u8) {
        let (low, high) = (self.first_view as i32, self.columns.len() as i32 - 1);
        self.byte(i32::from(relation), low, high);
    }

    fn column(&mut self, relation: u8, column: u8) {
        let columns = self.columns.get(usize::from(relation)).copied();
        self.byte(i32::from(column), 0, columns.unwrap_or(1) as i32 - 1);
    }

    fn place(&mut self, place: Place) {
        let relation = self.open.get(usize::from(place.item)).copied();
        self.byte(i32::from(place.item), 0, self.open.len() as i32 - 1);
        self.column(relation.unwrap_or(u8::MAX), place.column);
    }

    fn view(&mut self, view: &View) {
        match view {
            View::Basic(basic) => self.basic(basic),
            View::Aggregate(grouped) => self.grouped(grouped),
            View::Union(left, right) => self.set(5, *left, *right),
            View::Intersection(left, right) => self.set(6, *left, *right),
        }
    }

    fn set(&mut self, kind: i32, left: u8, right: u8) {
        self.byte(kind, 1, 7);
        self.view_number(left);
        self.view_number(right);
    }

    /// "from count (1 to 3), that many earlier relations".
    fn from(&mut self, from: &[u8]) {
        self.byte(from.len() as i32, 1, 3);
        for &relation in from {
            self.relation(relation);
        }
        self.open = from.to_vec();
    }

    fn basic(&mut self, basic: &Basic) {
        self.byte(3, 1, 7);
        self.from(&basic.from);
        self.byte(basic.select.len() as i32, 1, 8);
        self.cond(&basic.condition);
        basic.select.iter().for_each(|expr| self.expr(expr));
    }

    fn grouped(&mut self, grouped: &Grouped) {
        self.byte(4, 1, 7);
        self.from(&grouped.from);
        self.byte(grouped.grouping.len() as i32, 0, 4);
        self.byte(grouped.select.len() as i32, 1, 8);
        self.cond(&grouped.condition);
        grouped.grouping.iter().for_each(|place| self.place(*place));
        self.cond(&grouped.having);
        grouped.select.iter().for_each(|expr| self.expr(expr));
    }

    fn expr(&mut self, expr: &Expr) {
        match expr {
            Expr::Constant(value) => {
                self.byte(0, 0, 7);
                self.wide(i32::from(*value), i32::from(i16::MIN), i32::from(i16::MAX));
            }
            Expr::Column(place) => {
                self.byte(1, 0, 7);
                self.place(*place);
            }
            Expr::Sum(a, b) => self.two(2, a, b),
            Expr::Difference(a, b) => self.two(3, a, b),
            Expr::Product(a, b) => self.two(4, a, b),
            Expr::Nearest(step, a) => {
                self.byte(5, 0, 7);
                self.wide(i32::from(*step), 1, 1000);
                self.expr(a);
            }
            Expr::If(condition, a, b) => {
                self.byte(6, 0, 7);
                self.cond(condition);
                self.expr(a);
                self.expr(b);
            }
            Expr::Aggregate(aggregate, a) => {
                self.byte(7, 0, 7);
                let number = match aggregate {
                    Aggregate::Count => 0,
                    Aggregate::Sum => 1,
                    Aggregate::Min => 2,
                    Aggregate::Max => 3,
                };
                self.byte(number, 0, 3);
                self.expr(a);
            }
        }
    }

    fn two(&mut self, token: i32, a: &Expr, b: &Expr) {
        self.byte(token, 0, 7);
        self.expr(a);
        self.expr(b);
    }

    fn cond(&mut self, condition: &Cond) {
        let token = match condition {
            Cond::True => 0x10,
            Cond::Equal(..) => 0x11,
            Cond::Less(..) => 0x12,
            Cond::LessOrEqual(..) => 0x13,
            Cond::Not(..) => 0x14,
            Cond::And(..) => 0x15,
            Cond::Or(..) => 0x16,
            Cond::Exists(..) => 0x17,
        };
        self.byte(token, 0x10, 0x17);
        match condition {
            Cond::True => {}
            Cond::Equal(a, b) | Cond::Less(a, b) | Cond::LessOrEqual(a, b) => {
                self.expr(a);
                self.expr(b);
            }
            Cond::Not(a) => self.cond(a),
            Cond::And(a, b) | Cond::Or(a, b) => {
                self.cond(a);
                self.cond(b);
            }
            Cond::Exists(relation, a) => self.exists(*relation, a),
        }
    }

    /// What follows token 17. The item is open within its condition alone.
    fn exists(&mut self, relation: u8, condition: &Cond) {
        let (item, begin) = (self.open.len(), bytes(&self.fields).len() - 1);
        self.relation(relation);
        self.open.push(relation);
        self.cond(condition);
        self.open.pop();
        let end = bytes(&self.fields).len();
        self.exists.push((item, begin..end));
    }
}

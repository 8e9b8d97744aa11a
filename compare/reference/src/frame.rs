//! The bytes of one frame, "left to right for 4, 5, 6, a surplus byte last".

use crate::syntax::{
    Aggregate, Basic, Column, Cond, Expr, ForeignKey, Goal, Grouped, Place, Table, View, OPEN_ITEMS,
};

/// The number of a refusal; the line is added by the caller.
pub type Number = u8;

/// What the bytes of a frame are measured against: the relations before it.
pub struct Known<'a> {
    /// How many columns each earlier relation has.
    pub columns: &'a [usize],
    /// How many of these relations are tables.
    pub tables: usize,
}

/// A frame being read. The kind byte has been read before.
pub struct Reader<'a> {
    rest: &'a [u8],
    known: Known<'a>,
}

impl<'a> Reader<'a> {
    /// A reader of the bytes after the kind.
    pub fn new(rest: &'a [u8], known: Known<'a>) -> Reader<'a> {
        Reader { rest, known }
    }

    /// Frame 01.
    pub fn table(mut self) -> Result<Table, Number> {
        let rows = self.limited(0, 8)?;
        let count = self.limited(1, 4)?;
        let key_mask = self.limited(0, (1 << count) - 1)?;
        let mut columns = Vec::new();
        for _ in 0..count {
            let lo = self.word()? as i16;
            let hi = self.word()? as i16;
            // "lo ≤ hi" stands with the field, so it is judged when hi has been read.
            if lo > hi {
                return Err(5);
            }
            columns.push(Column { lo, hi });
        }
        self.end()?;
        Ok(Table {
            rows,
            key_mask,
            columns,
        })
    }

    /// Frame 02, up to its pairing.
    pub fn foreign_key(mut self) -> Result<ForeignKey, Number> {
        let child = self.table_number()?;
        let parent = self.table_number()?;
        let count = self.limited(1, 4)?;
        let mut pairs = Vec::new();
        for _ in 0..count {
            let from = self.column(child)?;
            let to = self.column(parent)?;
            pairs.push((from, to));
        }
        self.end()?;
        Ok(ForeignKey {
            child,
            parent,
            pairs,
        })
    }

    /// Frame 03.
    pub fn basic(mut self) -> Result<View, Number> {
        let from = self.from()?;
        let count = self.limited(1, 8)?;
        let condition = self.cond(&from)?;
        let select = self.exprs(count, &from)?;
        self.end()?;
        Ok(View::Basic(Basic {
            from,
            condition,
            select,
        }))
    }

    /// Frame 04.
    pub fn grouped(mut self) -> Result<View, Number> {
        let from = self.from()?;
        let groupings = self.limited(0, 4)?;
        let count = self.limited(1, 8)?;
        let condition = self.cond(&from)?;
        let mut grouping = Vec::new();
        for _ in 0..groupings {
            grouping.push(self.place(&from)?);
        }
        let having = self.cond(&from)?;
        let select = self.exprs(count, &from)?;
        self.end()?;
        Ok(View::Aggregate(Grouped {
            from,
            condition,
            grouping,
            having,
            select,
        }))
    }

    /// Frames 05 and 06, up to the column counts.
    pub fn set(mut self) -> Result<(u8, u8), Number> {
        let left = self.view_number()?;
        let right = self.view_number()?;
        self.end()?;
        Ok((left, right))
    }

    /// Frame 07.
    pub fn goal(mut self) -> Result<Goal, Number> {
        let view = self.view_number()?;
        let negative = self.limited(0, 1)? == 1;
        self.end()?;
        Ok(Goal { view, negative })
    }

    /// "4, frame too short".
    fn byte(&mut self) -> Result<u8, Number> {
        let (&first, rest) = self.rest.split_first().ok_or(4)?;
        self.rest = rest;
        Ok(first)
    }

    /// A sixteen-bit field. Half a field is no field: too short.
    fn word(&mut self) -> Result<u16, Number> {
        let high = self.byte()?;
        let low = self.byte()?;
        Ok(u16::from_be_bytes([high, low]))
    }

    /// "4, frame ... too long".
    fn end(&self) -> Result<(), Number> {
        if self.rest.is_empty() {
            Ok(())
        } else {
            Err(4)
        }
    }

    /// "5, field outside its limits".
    fn limited(&mut self, low: u8, high: u8) -> Result<u8, Number> {
        let byte = self.byte()?;
        if low <= byte && byte <= high {
            Ok(byte)
        } else {
            Err(5)
        }
    }

    /// "6, relation, from item, column ... that does not fit": a byte from `low` up, below `below`.
    fn fitting(&mut self, low: usize, below: usize) -> Result<u8, Number> {
        let byte = self.byte()?;
        if low <= usize::from(byte) && usize::from(byte) < below {
            Ok(byte)
        } else {
            Err(6)
        }
    }

    fn relation(&mut self) -> Result<u8, Number> {
        self.fitting(0, self.known.columns.len())
    }

    fn table_number(&mut self) -> Result<u8, Number> {
        self.fitting(0, self.known.tables)
    }

    /// "two earlier views", "a view".
    fn view_number(&mut self) -> Result<u8, Number> {
        self.fitting(self.known.tables, self.known.columns.len())
    }

    fn column(&mut self, relation: u8) -> Result<u8, Number> {
        self.fitting(0, self.known.columns[usize::from(relation)])
    }

    fn from(&mut self) -> Result<Vec<u8>, Number> {
        let count = self.limited(1, 3)?;
        (0..count).map(|_| self.relation()).collect()
    }

    fn place(&mut self, from: &[u8]) -> Result<Place, Number> {
        let item = self.fitting(0, from.len())?;
        let column = self.column(from[usize::from(item)])?;
        Ok(Place { item, column })
    }

    fn exprs(&mut self, count: u8, from: &[u8]) -> Result<Vec<Expr>, Number> {
        (0..count).map(|_| self.expr(from)).collect()
    }

    /// "A condition token where an expression is due ... is unknown there."
    fn expr(&mut self, from: &[u8]) -> Result<Expr, Number> {
        Ok(match self.byte()? {
            0x00 => Expr::Constant(self.word()? as i16),
            0x01 => Expr::Column(self.place(from)?),
            0x02 => Expr::Sum(self.boxed(from)?, self.boxed(from)?),
            0x03 => Expr::Difference(self.boxed(from)?, self.boxed(from)?),
            0x04 => Expr::Product(self.boxed(from)?, self.boxed(from)?),
            0x05 => {
                // "step m (two bytes unsigned, 1 to 1,000)".
                let step = self.word()?;
                if !(1..=1000).contains(&step) {
                    return Err(5);
                }
                Expr::Nearest(step, self.boxed(from)?)
            }
            0x06 => Expr::If(
                Box::new(self.cond(from)?),
                self.boxed(from)?,
                self.boxed(from)?,
            ),
            0x07 => {
                let aggregate = Aggregate::ALL[usize::from(self.limited(0, 3)?)];
                Expr::Aggregate(aggregate, self.boxed(from)?)
            }
            _ => return Err(4),
        })
    }

    fn boxed(&mut self, from: &[u8]) -> Result<Box<Expr>, Number> {
        self.expr(from).map(Box::new)
    }

    /// "an expression token where a condition is due, is unknown there."
    fn cond(&mut self, from: &[u8]) -> Result<Cond, Number> {
        Ok(match self.byte()? {
            0x10 => Cond::True,
            0x11 => Cond::Equal(self.boxed(from)?, self.boxed(from)?),
            0x12 => Cond::Less(self.boxed(from)?, self.boxed(from)?),
            0x13 => Cond::LessOrEqual(self.boxed(from)?, self.boxed(from)?),
            0x14 => Cond::Not(Box::new(self.cond(from)?)),
            0x15 => Cond::And(Box::new(self.cond(from)?), Box::new(self.cond(from)?)),
            0x16 => Cond::Or(Box::new(self.cond(from)?), Box::new(self.cond(from)?)),
            0x17 => self.exists(from)?,
            _ => return Err(4),
        })
    }

    /// "token 17, a relation numbered below the view, a condition", wherever it stands: its position
    /// is a whole-frame rule.
    fn exists(&mut self, from: &[u8]) -> Result<Cond, Number> {
        // "5 for a seventh from item, at token 17 itself": before the relation is read.
        if from.len() == OPEN_ITEMS {
            return Err(5);
        }
        let relation = self.relation()?;
        // "one more from item, numbered after those already open"; behind the condition it is closed.
        let open = [from, &[relation]].concat();
        Ok(Cond::Exists(relation, Box::new(self.cond(&open)?)))
    }
}

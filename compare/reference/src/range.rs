//! "A range is a value with its own operations": ranges, and the range of an expression.

use crate::eval::nearest;
use crate::syntax::{Aggregate, Cond, Expr, Place};

/// The values from `lo` to `hi`, both within them.
#[derive(Clone, Copy, Debug, PartialEq, Eq)]
pub struct Range {
    /// The least value.
    pub lo: i64,
    /// The greatest value.
    pub hi: i64,
}

impl Range {
    /// "every range must lie within -2^31 to 2^31-1".
    pub const WHOLE: Range = Range {
        lo: -(1 << 31),
        hi: (1 << 31) - 1,
    };

    /// The range from `lo` to `hi`.
    pub fn new(lo: i64, hi: i64) -> Range {
        Range { lo, hi }
    }

    /// A single value.
    pub fn single(value: i64) -> Range {
        Range::new(value, value)
    }

    /// Whether the range lies within [`Range::WHOLE`].
    pub fn fits(self) -> bool {
        Range::WHOLE.lo <= self.lo && self.hi <= Range::WHOLE.hi
    }

    /// Whether a value lies in the range.
    pub fn holds(self, value: i64) -> bool {
        self.lo <= value && value <= self.hi
    }

    /// The least range that holds both.
    pub fn hull(self, other: Range) -> Range {
        Range::new(self.lo.min(other.lo), self.hi.max(other.hi))
    }

    /// "the hull of the end results" of an operation, over all four pairs of ends.
    fn ends(self, other: Range, operation: fn(i64, i64) -> i64) -> Range {
        let first = Range::single(operation(self.lo, other.lo));
        [
            (self.lo, other.hi),
            (self.hi, other.lo),
            (self.hi, other.hi),
        ]
        .into_iter()
        .fold(first, |hull, (a, b)| {
            hull.hull(Range::single(operation(a, b)))
        })
    }

    /// The range of a sum.
    pub fn sum(self, other: Range) -> Range {
        self.ends(other, |a, b| a + b)
    }

    /// The range of a difference.
    pub fn difference(self, other: Range) -> Range {
        self.ends(other, |a, b| a - b)
    }

    /// The range of a product.
    pub fn product(self, other: Range) -> Range {
        self.ends(other, |a, b| a * b)
    }

    /// "rounding rounds both ends".
    pub fn nearest(self, step: u16) -> Range {
        Range::new(nearest(step, self.lo), nearest(step, self.hi))
    }

    /// "count is 0 to R, sum is R × min(lo,0) to R × max(hi,0), where R is the row bound; min and
    /// max keep the range".
    pub fn aggregate(self, aggregate: Aggregate, bound: u64) -> Range {
        let bound = bound as i64;
        match aggregate {
            Aggregate::Count => Range::new(0, bound),
            Aggregate::Sum => Range::new(bound * self.lo.min(0), bound * self.hi.max(0)),
            Aggregate::Min | Aggregate::Max => self,
        }
    }
}

/// What the range of an expression depends on.
#[derive(Clone, Copy)]
pub struct Setting<'a> {
    /// The column ranges of each from item that is open.
    pub items: &'a [&'a [Range]],
    /// The column ranges of every relation before the view.
    pub relations: &'a [Vec<Range>],
    /// R, the row bound of the view.
    pub bound: u64,
}

impl Setting<'_> {
    /// The range of a column.
    pub fn column(&self, place: Place) -> Range {
        self.items[usize::from(place.item)][usize::from(place.column)]
    }

    /// The range of an expression, if it and those of all expressions in it lie within 32 bits.
    ///
    /// "Every expression has a range, and every range must lie within": also in the condition of
    /// 06, in the branch not taken and below count. As each part is checked before the whole is
    /// worked out, the ends stay far within 64 bits.
    pub fn expr(&self, expr: &Expr) -> Option<Range> {
        let range = match expr {
            Expr::Constant(value) => Range::single(i64::from(*value)),
            Expr::Column(place) => self.column(*place),
            Expr::Sum(a, b) => self.expr(a)?.sum(self.expr(b)?),
            Expr::Difference(a, b) => self.expr(a)?.difference(self.expr(b)?),
            Expr::Product(a, b) => self.expr(a)?.product(self.expr(b)?),
            Expr::Nearest(step, a) => self.expr(a)?.nearest(*step),
            Expr::If(condition, a, b) => {
                self.cond(condition)?;
                self.expr(a)?.hull(self.expr(b)?)
            }
            Expr::Aggregate(aggregate, a) => self.expr(a)?.aggregate(*aggregate, self.bound),
        };
        range.fits().then_some(range)
    }

    /// Whether all expressions of a condition have a range within 32 bits.
    pub fn cond(&self, condition: &Cond) -> Option<()> {
        match condition {
            Cond::True => Some(()),
            Cond::Equal(a, b) | Cond::Less(a, b) | Cond::LessOrEqual(a, b) => {
                self.expr(a)?;
                self.expr(b).map(|_| ())
            }
            Cond::Not(a) => self.cond(a),
            Cond::And(a, b) | Cond::Or(a, b) => {
                self.cond(a)?;
                self.cond(b)
            }
            // The row bound stays: "Row bounds do not count it".
            Cond::Exists(relation, a) => {
                let items = self.opened(*relation);
                let items = &items;
                Setting { items, ..*self }.cond(a)
            }
        }
    }

    /// The items inside an exists: "that relation's row is one more from item".
    pub fn opened(&self, relation: u8) -> Vec<&[Range]> {
        let ranges = self.relations[usize::from(relation)].as_slice();
        [self.items, &[ranges]].concat()
    }
}

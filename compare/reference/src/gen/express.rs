//! Random expressions and conditions, kept to a number of bytes and, in general, within range.

use super::Rng;
use crate::range::{Range, Setting};
use crate::syntax::{Aggregate, Cond, Expr, Place, OPEN_ITEMS};
use crate::text::FRAME_BYTES;

/// Where an expression stands.
#[derive(Clone, Copy)]
pub struct Scope<'a> {
    /// The ranges of the from items' columns and the row bound.
    pub setting: Setting<'a>,
    /// In having and select of an aggregate view, the grouping columns.
    pub group: Option<&'a [Place]>,
    /// In where, what exists may look into.
    pub exists: Option<Outlook<'a>>,
}

/// What exists may look into.
#[derive(Clone, Copy)]
pub struct Outlook<'a> {
    /// The row bound of every relation before the view.
    pub bounds: &'a [u64],
    /// How many combinations of rows the items have that are open.
    pub combinations: u64,
}

/// An exists is drawn only where its items have no more combinations than this, so that any
/// evaluator is quick.
const COMBINATIONS: u64 = 256;

impl Outlook<'_> {
    /// With the row of one more relation; without rows there is nothing to try.
    fn opened(self, relation: usize) -> Self {
        Outlook {
            combinations: self.combinations * self.bounds[relation].max(1),
            ..self
        }
    }

    fn relations(self) -> Vec<usize> {
        (0..self.bounds.len())
            .filter(|&relation| self.opened(relation).combinations <= COMBINATIONS)
            .collect()
    }
}

impl<'a> Scope<'a> {
    /// The scope below a 07.
    fn member(self) -> Scope<'a> {
        Scope {
            group: None,
            ..self
        }
    }

    /// The relations over which an exists of so many bytes may stand here.
    fn relations(self, bytes: usize) -> Vec<usize> {
        match self.exists {
            Some(outlook) if bytes >= 3 && self.setting.items.len() < OPEN_ITEMS => {
                outlook.relations()
            }
            _ => Vec::new(),
        }
    }

    /// The columns that may be read here.
    fn places(self) -> Vec<Place> {
        match self.group {
            Some(grouping) => grouping.to_vec(),
            None => all_places(self.setting.items),
        }
    }
}

/// Every column of the from items.
pub fn all_places(items: &[&[Range]]) -> Vec<Place> {
    let place = |item: usize, column: usize| Place {
        item: item as u8,
        column: column as u8,
    };
    items
        .iter()
        .enumerate()
        .flat_map(|(item, ranges)| (0..ranges.len()).map(move |column| place(item, column)))
        .collect()
}

/// An expression of at most so many bytes, at least 3.
pub fn expr(rng: &mut Rng, scope: Scope, bytes: usize) -> Expr {
    let drawn = any_expr(rng, scope, bytes);
    // A range too large is put right here, so that no draft is thrown away for it.
    if scope.setting.expr(&drawn).is_some() {
        drawn
    } else {
        leaf(rng, scope)
    }
}

fn any_expr(rng: &mut Rng, scope: Scope, bytes: usize) -> Expr {
    #[derive(Clone, Copy)]
    enum Shape {
        Leaf,
        Two,
        Nearest,
        If,
        Aggregate,
    }
    // With many bytes at hand a leaf would waste them.
    let mut shapes = vec![(if bytes > 24 { 0 } else { 4 }, Shape::Leaf)];
    if bytes >= 5 && scope.group.is_some() {
        shapes.push((8, Shape::Aggregate));
    }
    if bytes >= 6 {
        shapes.push((2, Shape::Nearest));
    }
    if bytes >= 7 {
        shapes.push((5, Shape::Two));
    }
    if bytes >= 8 {
        shapes.push((3, Shape::If));
    }
    match rng.weighted(&shapes) {
        Shape::Leaf => leaf(rng, scope),
        Shape::Two => {
            let (a, b) = split(rng, bytes - 1, 3, 3);
            let a = Box::new(expr(rng, scope, a));
            let b = Box::new(expr(rng, scope, b));
            match rng.below(3) {
                0 => Expr::Sum(a, b),
                1 => Expr::Difference(a, b),
                _ => Expr::Product(a, b),
            }
        }
        Shape::Nearest => {
            let steps = [1, 2, 3, 5, 10, 1000];
            let step = if rng.percent(80) {
                *rng.pick(&steps)
            } else {
                rng.within(1, 1000) as u16
            };
            Expr::Nearest(step, Box::new(expr(rng, scope, bytes - 3)))
        }
        Shape::If => {
            let (first, rest) = split(rng, bytes - 1, 1, 6);
            let (a, b) = split(rng, rest, 3, 3);
            Expr::If(
                Box::new(cond(rng, scope, first)),
                Box::new(expr(rng, scope, a)),
                Box::new(expr(rng, scope, b)),
            )
        }
        Shape::Aggregate => {
            let kind = *rng.pick(&Aggregate::ALL);
            Expr::Aggregate(kind, Box::new(expr(rng, scope.member(), bytes - 2)))
        }
    }
}

fn leaf(rng: &mut Rng, scope: Scope) -> Expr {
    let mut places = scope.places();
    // In where the item opened last is read more often than the others.
    if scope.exists.is_some() && rng.percent(40) {
        let last = scope.setting.items.len() - 1;
        places.retain(|place| usize::from(place.item) == last);
    }
    if places.is_empty() || rng.percent(25) {
        Expr::Constant(constant(rng))
    } else {
        Expr::Column(*rng.pick(&places))
    }
}

fn constant(rng: &mut Rng) -> i16 {
    match rng.below(20) {
        0 => *rng.pick(&[i16::MIN, i16::MAX, -32767, 256, -256]),
        1 => rng.bits() as i16,
        2..=4 => rng.within(-20, 20) as i16,
        _ => rng.within(-3, 3) as i16,
    }
}

/// A condition of at most so many bytes, at least 1.
pub fn cond(rng: &mut Rng, scope: Scope, bytes: usize) -> Cond {
    if let Some(drawn) = exists(rng, scope, bytes, 25) {
        return drawn;
    }
    if bytes < 7 {
        return if bytes >= 2 && rng.percent(20) {
            Cond::Not(Box::new(cond(rng, scope, bytes - 1)))
        } else {
            Cond::True
        };
    }
    match rng.below(12) {
        0 if bytes <= 24 => Cond::True,
        0 | 1 => Cond::Not(Box::new(cond(rng, scope, bytes - 1))),
        2 | 3 => {
            let (a, b) = split(rng, bytes - 1, 1, 1);
            Cond::And(Box::new(cond(rng, scope, a)), Box::new(cond(rng, scope, b)))
        }
        4 | 5 => {
            let (a, b) = split(rng, bytes - 1, 1, 1);
            Cond::Or(Box::new(cond(rng, scope, a)), Box::new(cond(rng, scope, b)))
        }
        _ => comparison(rng, scope, bytes),
    }
}

/// An exists of at most so many bytes, in so many of a hundred draws. Often it holds the next one,
/// so that all six items are met.
fn exists(rng: &mut Rng, scope: Scope, bytes: usize, percent: usize) -> Option<Cond> {
    let relations = scope.relations(bytes);
    if relations.is_empty() || !rng.percent(percent) {
        return None;
    }
    let relation = *rng.pick(&relations);
    let items = scope.setting.opened(relation as u8);
    let inside = Scope {
        setting: Setting {
            items: &items,
            ..scope.setting
        },
        exists: scope.exists.map(|outlook| outlook.opened(relation)),
        ..scope
    };
    let next = exists(rng, inside, bytes - 2, 40);
    let condition = next.unwrap_or_else(|| cond(rng, inside, bytes - 2));
    Some(Cond::Exists(relation as u8, Box::new(condition)))
}

/// A comparison, often with a constant within the other side's range, so that it is neither
/// always nor never true.
fn comparison(rng: &mut Rng, scope: Scope, bytes: usize) -> Cond {
    let (mut a, mut b);
    if rng.percent(60) {
        a = expr(rng, scope, bytes - 4);
        b = Expr::Constant(constant(rng));
        if let Some(range) = scope.setting.expr(&a) {
            let (lo, hi) = (range.lo.max(-32768), range.hi.min(32767));
            if lo <= hi && rng.percent(80) {
                b = Expr::Constant(rng.within(lo, hi) as i16);
            }
        }
    } else {
        let (first, second) = split(rng, bytes - 1, 3, 3);
        a = expr(rng, scope, first);
        b = expr(rng, scope, second);
    }
    if rng.percent(50) {
        std::mem::swap(&mut a, &mut b);
    }
    let (a, b) = (Box::new(a), Box::new(b));
    match rng.below(3) {
        0 => Cond::Equal(a, b),
        1 => Cond::Less(a, b),
        _ => Cond::LessOrEqual(a, b),
    }
}

/// Two parts of a number of bytes, each at least as large as said.
fn split(rng: &mut Rng, bytes: usize, first: usize, second: usize) -> (usize, usize) {
    let a = rng.within(first as i64, (bytes - second) as i64) as usize;
    (a, bytes - a)
}

/// The bytes of a frame still to be given away.
pub struct Bytes {
    left: usize,
    /// What the expressions to come need at least.
    kept: usize,
    /// Whether to give away as much as there is.
    full: bool,
}

impl Bytes {
    /// The bytes left when some are taken, of which some are kept for the expressions.
    pub fn new(rng: &mut Rng, taken: usize, kept: usize) -> Bytes {
        Bytes {
            left: FRAME_BYTES - taken,
            kept,
            full: rng.percent(5),
        }
    }

    /// A condition, when so many conditions are still to come, this one counted.
    ///
    /// Some are just true, so that rows reach the views above.
    pub fn cond(&mut self, rng: &mut Rng, scope: Scope, conditions: usize) -> Cond {
        if !self.full && rng.percent(25) {
            self.left -= 1;
            return Cond::True;
        }
        let most = self.left - self.kept - (conditions - 1);
        let usual = if scope.exists.is_some() { 34 } else { 22 };
        let given = self.give(rng, 1, most, usual);
        cond(rng, scope, given)
    }

    /// The next expression.
    pub fn expr(&mut self, rng: &mut Rng, scope: Scope) -> Expr {
        self.kept -= 3;
        let most = self.left - self.kept;
        let given = self.give(rng, 3, most, 22);
        expr(rng, scope, given)
    }

    fn give(&mut self, rng: &mut Rng, least: usize, most: usize, usual: usize) -> usize {
        let usual = if self.full { most } else { most.min(usual) };
        let least = if self.full {
            least.max(usual / 3)
        } else {
            least
        };
        let given = rng.within(least as i64, usual.max(least) as i64) as usize;
        self.left -= given;
        given
    }
}

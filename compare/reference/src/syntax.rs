//! Abstract syntax of a rule file, and what is worked out from it.

use crate::range::Range;

/// "Tables and views are relations, numbered together from 0, at most 16."
pub const RELATIONS: usize = 16;
/// "Foreign keys: at most 16."
pub const FOREIGN_KEYS: usize = 16;
/// "at most six in all": the from items of a view and those that exists opens.
pub const OPEN_ITEMS: usize = 6;
/// "Each is at most 64."
pub const ROW_BOUND: u64 = 64;
/// "at most 2^24."
pub const CANDIDATES: u64 = 1 << 24;

/// A refusal: "its number and a line from 1, or line 0 where none is said".
#[derive(Clone, Copy, Debug, PartialEq, Eq, Hash, PartialOrd, Ord)]
pub struct Refusal {
    /// The number. A text or a look is refused by 1 to 13.
    pub number: u8,
    /// The line from 1, or 0.
    pub line: u16,
}

/// One column of a table: "lo and hi for each column, lo ≤ hi".
#[derive(Clone, Copy, Debug, PartialEq, Eq)]
pub struct Column {
    /// The least value.
    pub lo: i16,
    /// The greatest value.
    pub hi: i16,
}

impl Column {
    /// How many values the column can take.
    pub fn size(self) -> u64 {
        (i64::from(self.hi) - i64::from(self.lo) + 1) as u64
    }
}

/// Frame 01.
#[derive(Clone, Debug, PartialEq, Eq)]
pub struct Table {
    /// The number of rows, 0 to 8.
    pub rows: u8,
    /// "bit i of value 2^i means column i is in the primary key, 0 no key".
    pub key_mask: u8,
    /// The columns, 1 to 4.
    pub columns: Vec<Column>,
}

impl Table {
    /// The columns of the primary key, in rising order.
    pub fn key_columns(&self) -> Vec<usize> {
        (0..self.columns.len())
            .filter(|&column| self.key_mask >> column & 1 == 1)
            .collect()
    }
}

/// Frame 02.
#[derive(Clone, Debug, PartialEq, Eq)]
pub struct ForeignKey {
    /// The child table.
    pub child: u8,
    /// The parent table.
    pub parent: u8,
    /// Pairs (child column, parent column).
    pub pairs: Vec<(u8, u8)>,
}

/// A column seen through a from item.
#[derive(Clone, Copy, Debug, PartialEq, Eq)]
pub struct Place {
    /// The place in the from list, from 0. What exists opens is numbered on.
    pub item: u8,
    /// The column of that relation, from 0.
    pub column: u8,
}

/// The aggregates of token 07.
#[derive(Clone, Copy, Debug, PartialEq, Eq)]
pub enum Aggregate {
    /// 0, the number of members.
    Count,
    /// 1
    Sum,
    /// 2
    Min,
    /// 3
    Max,
}

impl Aggregate {
    /// By number.
    pub const ALL: [Aggregate; 4] = [
        Aggregate::Count,
        Aggregate::Sum,
        Aggregate::Min,
        Aggregate::Max,
    ];
}

/// Expressions, tokens 00 to 07.
#[derive(Clone, Debug, PartialEq, Eq)]
pub enum Expr {
    /// 00
    Constant(i16),
    /// 01
    Column(Place),
    /// 02
    Sum(Box<Expr>, Box<Expr>),
    /// 03
    Difference(Box<Expr>, Box<Expr>),
    /// 04
    Product(Box<Expr>, Box<Expr>),
    /// 05, the step and what is rounded.
    Nearest(u16, Box<Expr>),
    /// 06, "the first if it holds, else the second".
    If(Box<Cond>, Box<Expr>, Box<Expr>),
    /// 07
    Aggregate(Aggregate, Box<Expr>),
}

/// Conditions, tokens 10 to 17.
#[derive(Clone, Debug, PartialEq, Eq)]
pub enum Cond {
    /// 10
    True,
    /// 11
    Equal(Box<Expr>, Box<Expr>),
    /// 12
    Less(Box<Expr>, Box<Expr>),
    /// 13
    LessOrEqual(Box<Expr>, Box<Expr>),
    /// 14
    Not(Box<Cond>),
    /// 15
    And(Box<Cond>, Box<Cond>),
    /// 16
    Or(Box<Cond>, Box<Cond>),
    /// 17, the relation, and the condition that "some row satisfies".
    Exists(u8, Box<Cond>),
}

/// What a condition or an expression holds directly.
pub struct Parts<'a> {
    /// Its conditions.
    pub conds: Vec<&'a Cond>,
    /// Its expressions.
    pub exprs: Vec<&'a Expr>,
}

impl Parts<'_> {
    /// The relations that exists names in them, at any depth.
    fn looked_into(&self) -> Vec<u8> {
        let conds = self.conds.iter().flat_map(|it| it.looked_into());
        let exprs = self.exprs.iter().flat_map(|it| it.parts().looked_into());
        conds.chain(exprs).collect()
    }
}

impl Expr {
    /// What it holds.
    pub fn parts(&self) -> Parts<'_> {
        let (conds, exprs): (Vec<&Cond>, Vec<&Expr>) = match self {
            Expr::Constant(_) | Expr::Column(_) => (vec![], vec![]),
            Expr::Sum(a, b) | Expr::Difference(a, b) | Expr::Product(a, b) => (vec![], vec![a, b]),
            Expr::Nearest(_, a) | Expr::Aggregate(_, a) => (vec![], vec![a]),
            Expr::If(condition, a, b) => (vec![condition], vec![a, b]),
        };
        Parts { conds, exprs }
    }
}

impl Cond {
    /// What it holds.
    pub fn parts(&self) -> Parts<'_> {
        let (conds, exprs): (Vec<&Cond>, Vec<&Expr>) = match self {
            Cond::True => (vec![], vec![]),
            Cond::Equal(a, b) | Cond::Less(a, b) | Cond::LessOrEqual(a, b) => (vec![], vec![a, b]),
            Cond::Not(a) | Cond::Exists(_, a) => (vec![a], vec![]),
            Cond::And(a, b) | Cond::Or(a, b) => (vec![a, b], vec![]),
        };
        Parts { conds, exprs }
    }

    /// The relations that exists names in it, at any depth.
    pub fn looked_into(&self) -> Vec<u8> {
        let mut found = self.parts().looked_into();
        if let Cond::Exists(relation, _) = self {
            found.push(*relation);
        }
        found
    }

    /// The condition under a `not`.
    pub fn negated(&self) -> Cond {
        Cond::Not(Box::new(self.clone()))
    }
}

/// Frame 03.
#[derive(Clone, Debug, PartialEq, Eq)]
pub struct Basic {
    /// The from list, relation numbers.
    pub from: Vec<u8>,
    /// The where condition.
    pub condition: Cond,
    /// The select expressions.
    pub select: Vec<Expr>,
}

/// Frame 04.
#[derive(Clone, Debug, PartialEq, Eq)]
pub struct Grouped {
    /// The from list, relation numbers.
    pub from: Vec<u8>,
    /// The where condition.
    pub condition: Cond,
    /// The grouping columns.
    pub grouping: Vec<Place>,
    /// The having condition.
    pub having: Cond,
    /// The select expressions.
    pub select: Vec<Expr>,
}

/// Frames 03 to 06.
#[derive(Clone, Debug, PartialEq, Eq)]
pub enum View {
    /// 03
    Basic(Basic),
    /// 04
    Aggregate(Grouped),
    /// 05, left and right.
    Union(u8, u8),
    /// 06, left and right.
    Intersection(u8, u8),
}

impl View {
    /// The where condition, if it has one.
    pub fn condition(&self) -> Option<&Cond> {
        match self {
            View::Basic(basic) => Some(&basic.condition),
            View::Aggregate(grouped) => Some(&grouped.condition),
            View::Union(..) | View::Intersection(..) => None,
        }
    }

    /// The relations of the from list, or both operands.
    pub fn from(&self) -> Vec<u8> {
        match self {
            View::Basic(basic) => basic.from.clone(),
            View::Aggregate(grouped) => grouped.from.clone(),
            View::Union(left, right) | View::Intersection(left, right) => vec![*left, *right],
        }
    }

    /// The relations whose rows it reads: those, and the ones that exists names in where.
    pub fn reads(&self) -> Vec<u8> {
        let mut relations = self.from();
        relations.extend(self.condition().iter().flat_map(|it| it.looked_into()));
        relations
    }
}

/// Frame 07.
#[derive(Clone, Copy, Debug, PartialEq, Eq)]
pub struct Goal {
    /// The relation number of the view.
    pub view: u8,
    /// "sign (0 positive, 1 negative)".
    pub negative: bool,
}

/// A rule file as its writer means it, whether or not it keeps the rules.
#[derive(Clone, Debug, PartialEq, Eq)]
pub struct Syntax {
    /// Relations 0 up to their number.
    pub tables: Vec<Table>,
    /// The foreign keys, in order.
    pub keys: Vec<ForeignKey>,
    /// The relations after the tables.
    pub views: Vec<View>,
    /// The goal.
    pub goal: Goal,
}

impl Syntax {
    /// The view with this relation number, if it is one.
    pub fn view(&self, relation: usize) -> Option<&View> {
        self.views.get(relation.checked_sub(self.tables.len())?)
    }

    /// Whether some where condition has an exists.
    pub fn has_exists(&self) -> bool {
        let mut conditions = self.views.iter().filter_map(View::condition);
        conditions.any(|condition| !condition.looked_into().is_empty())
    }

    /// The number of cells: one for each table, row and column.
    pub fn cells(&self) -> usize {
        self.tables
            .iter()
            .map(|table| usize::from(table.rows) * table.columns.len())
            .sum()
    }
}

/// An accepted file: its syntax and "Bounds worked out from the file".
#[derive(Clone, Debug, PartialEq, Eq)]
pub struct File {
    /// What the frames say.
    pub syntax: Syntax,
    /// The row bound of each relation.
    pub row_bounds: Vec<u64>,
    /// The range of each column of each relation.
    pub ranges: Vec<Vec<Range>>,
    /// N, the number of candidates.
    pub candidates: u64,
}

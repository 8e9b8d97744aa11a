//! A rule file as readable text, one statement for each frame.
//!
//! Parentheses stand wherever the tree would not be read back the same without them.

use reference::syntax::{
    Aggregate, Basic, Cond, Expr, ForeignKey, Goal, Grouped, Place, Syntax, Table, View,
};
use reference::File;

/// The first line of every text.
pub const NOTICE: &str = "-- Readable text of a rule file: a convenience, which proves nothing.";

/// The names of from items, by number.
const ITEMS: [&str; 6] = ["a", "b", "c", "d", "e", "f"];

/// A statement longer than this is broken into lines.
const WIDTH: usize = 96;

/// The text of an accepted file, with the notice and the number of candidates as comments.
pub fn file(file: &File) -> String {
    let candidates = file.candidates;
    let statements = syntax(&file.syntax);
    format!("{NOTICE}\n-- Candidates: {candidates}.\n{statements}")
}

/// The statements of a syntax that keeps the limits of the format.
pub fn syntax(syntax: &Syntax) -> String {
    let writer = Writer {
        tables: syntax.tables.len(),
        open: 0,
    };
    let tables = syntax.tables.iter().enumerate();
    let views = syntax.views.iter().enumerate();
    let mut statements: Vec<String> = tables.map(|(number, it)| table(number, it)).collect();
    statements.extend(syntax.keys.iter().map(|it| writer.key(it)));
    statements.extend(views.map(|(above, it)| writer.view(writer.tables + above, it)));
    statements.push(writer.goal(syntax.goal));
    statements.iter().map(|it| format!("{it};\n")).collect()
}

fn table(number: usize, table: &Table) -> String {
    let keys = table.key_columns();
    let columns = table.columns.iter().enumerate().map(|(place, column)| {
        let key = if keys.contains(&place) { " KEY" } else { "" };
        format!("c{place} {} .. {}{key}", column.lo, column.hi)
    });
    format!("TABLE t{number} ROWS {} ({})", table.rows, list(columns))
}

/// Things with commas between them.
fn list(things: impl Iterator<Item = String>) -> String {
    things.collect::<Vec<String>>().join(", ")
}

/// Clauses on one line, or each on its own.
fn clauses(head: String, clauses: Vec<String>) -> String {
    let length = head.len() + clauses.iter().map(|it| it.len() + 1).sum::<usize>();
    let between = if length <= WIDTH { " " } else { "\n    " };
    let all: Vec<String> = std::iter::once(head).chain(clauses).collect();
    all.join(between)
}

/// What names need.
#[derive(Clone, Copy, Debug)]
pub struct Writer {
    /// Relations below this number are tables.
    pub tables: usize,
    /// How many from items are open: the number of the next one.
    pub open: usize,
}

impl Writer {
    fn name(&self, relation: u8) -> String {
        let kind = if usize::from(relation) < self.tables {
            't'
        } else {
            'v'
        };
        format!("{kind}{relation}")
    }

    fn key(&self, key: &ForeignKey) -> String {
        format!(
            "FOREIGN KEY {} ({}) REFERENCES {} ({})",
            self.name(key.child),
            list(key.pairs.iter().map(|pair| format!("c{}", pair.0))),
            self.name(key.parent),
            list(key.pairs.iter().map(|pair| format!("c{}", pair.1)))
        )
    }

    fn goal(&self, goal: Goal) -> String {
        let sign = if goal.negative {
            "NEGATIVE"
        } else {
            "POSITIVE"
        };
        format!("GOAL {sign} {}", self.name(goal.view))
    }

    fn view(&self, number: usize, view: &View) -> String {
        let head = format!("VIEW v{number} AS");
        match view {
            View::Basic(it) => clauses(head, self.with(it.from.len()).basic(it)),
            View::Aggregate(it) => clauses(head, self.with(it.from.len()).grouped(it)),
            View::Union(a, b) => format!("{head} {} UNION {}", self.name(*a), self.name(*b)),
            View::Intersection(a, b) => {
                format!("{head} {} INTERSECT {}", self.name(*a), self.name(*b))
            }
        }
    }

    /// The same with so many open from items.
    fn with(self, open: usize) -> Writer {
        Writer { open, ..self }
    }

    fn basic(&self, basic: &Basic) -> Vec<String> {
        let mut clauses = self.select_from(&basic.select, &basic.from);
        clauses.extend(self.condition("WHERE", &basic.condition));
        clauses
    }

    fn grouped(&self, grouped: &Grouped) -> Vec<String> {
        let mut clauses = self.select_from(&grouped.select, &grouped.from);
        clauses.extend(self.condition("WHERE", &grouped.condition));
        clauses.push(group_by(&grouped.grouping));
        clauses.extend(self.condition("HAVING", &grouped.having));
        clauses
    }

    fn select_from(&self, select: &[Expr], from: &[u8]) -> Vec<String> {
        let items = from.iter().enumerate();
        let items = items.map(|(number, relation)| self.opened(*relation, number));
        vec![
            format!("SELECT {}", list(select.iter().map(|it| self.expr(it)))),
            format!("FROM {}", list(items)),
        ]
    }

    /// A from item such as `t0 a`.
    fn opened(&self, relation: u8, number: usize) -> String {
        format!("{} {}", self.name(relation), item(number))
    }

    /// A where or having clause, left out when it is `TRUE`.
    fn condition(&self, keyword: &str, condition: &Cond) -> Option<String> {
        (*condition != Cond::True).then(|| format!("{keyword} {}", self.cond(condition)))
    }

    /// An expression.
    pub fn expr(&self, it: &Expr) -> String {
        match it {
            Expr::Constant(value) => value.to_string(),
            Expr::Column(it) => place(it),
            Expr::Sum(a, b) => format!("{} + {}", self.expr(a), self.operand(b, is_sum)),
            Expr::Difference(a, b) => format!("{} - {}", self.expr(a), self.operand(b, is_sum)),
            Expr::Product(a, b) => {
                let (a, b) = (self.operand(a, is_sum), self.operand(b, is_operation));
                format!("{a} * {b}")
            }
            Expr::Nearest(step, a) => format!("ROUND({}, {step})", self.expr(a)),
            Expr::If(c, a, b) => {
                let (c, a, b) = (self.cond(c), self.expr(a), self.expr(b));
                format!("CASE WHEN {c} THEN {a} ELSE {b} END")
            }
            Expr::Aggregate(aggregate, a) => {
                format!("{}({})", aggregate_name(*aggregate), self.expr(a))
            }
        }
    }

    /// An operand, in parentheses if it is one of those that need them there.
    fn operand(&self, it: &Expr, needed: fn(&Expr) -> bool) -> String {
        parenthesised(self.expr(it), needed(it))
    }

    /// A condition.
    pub fn cond(&self, it: &Cond) -> String {
        match it {
            Cond::True => "TRUE".to_owned(),
            Cond::Equal(a, b) => format!("{} = {}", self.expr(a), self.expr(b)),
            Cond::Less(a, b) => format!("{} < {}", self.expr(a), self.expr(b)),
            Cond::LessOrEqual(a, b) => format!("{} <= {}", self.expr(a), self.expr(b)),
            Cond::Not(a) => format!("NOT {}", self.part(a, is_not_simple)),
            Cond::And(a, b) => {
                let (a, b) = (self.part(a, is_or), self.part(b, is_connective));
                format!("{a} AND {b}")
            }
            Cond::Or(a, b) => format!("{} OR {}", self.cond(a), self.part(b, is_or)),
            Cond::Exists(relation, a) => self.exists(*relation, a),
        }
    }

    /// A part of a condition, in parentheses if it is one of those that need them there.
    fn part(&self, it: &Cond, needed: fn(&Cond) -> bool) -> String {
        parenthesised(self.cond(it), needed(it))
    }

    /// Inside, the relation's row is one more from item.
    fn exists(&self, relation: u8, condition: &Cond) -> String {
        let inside = self.with(self.open + 1);
        let mut words = vec![format!("FROM {}", self.opened(relation, self.open))];
        words.extend(inside.condition("WHERE", condition));
        format!("EXISTS ({})", words.join(" "))
    }
}

/// The mark of an aggregate view, so it stands also with no grouping columns.
fn group_by(grouping: &[Place]) -> String {
    if grouping.is_empty() {
        "GROUP BY ()".to_owned()
    } else {
        format!("GROUP BY {}", list(grouping.iter().map(place)))
    }
}

fn item(number: usize) -> &'static str {
    ITEMS.get(number).unwrap_or(&"?")
}

fn place(place: &Place) -> String {
    format!("{}.c{}", item(usize::from(place.item)), place.column)
}

fn aggregate_name(aggregate: Aggregate) -> &'static str {
    match aggregate {
        Aggregate::Count => "COUNT",
        Aggregate::Sum => "SUM",
        Aggregate::Min => "MIN",
        Aggregate::Max => "MAX",
    }
}

fn parenthesised(text: String, needed: bool) -> String {
    if needed {
        format!("({text})")
    } else {
        text
    }
}

fn is_sum(it: &Expr) -> bool {
    matches!(it, Expr::Sum(..) | Expr::Difference(..))
}

fn is_operation(it: &Expr) -> bool {
    is_sum(it) || matches!(it, Expr::Product(..))
}

fn is_or(it: &Cond) -> bool {
    matches!(it, Cond::Or(..))
}

fn is_connective(it: &Cond) -> bool {
    matches!(it, Cond::And(..) | Cond::Or(..))
}

/// Below `NOT`, a comparison has parentheses for the reader's sake.
fn is_not_simple(it: &Cond) -> bool {
    !matches!(it, Cond::True | Cond::Not(..) | Cond::Exists(..))
}

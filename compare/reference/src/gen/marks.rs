//! What accepted files have of exists, for counting them.

use crate::syntax::{Cond, Expr, Parts, Syntax, View, OPEN_ITEMS};
use std::collections::BTreeSet;

/// What is counted.
pub const EXISTS_MARKS: [&str; 22] = [
    "exists",
    "exists in a basic view",
    "exists in an aggregate view",
    "exists behind three from items",
    "exists over a table",
    "exists over a table without rows",
    "exists over a view",
    "exists over a union",
    "exists over an intersection",
    "exists over a view that nothing else names",
    "not exists",
    "exists in exists",
    "exists beside exists",
    "exists in a 06",
    "exists in a 06 in exists",
    "exists with an outer column",
    "exists with six items open",
    "exists in an operand of a union",
    "exists in an operand of an intersection",
    "exists in the goal",
    "exists in the negated goal",
    "exists below the goal",
];

/// Which of [`EXISTS_MARKS`] a file has.
pub fn exists_marks(syntax: &Syntax) -> BTreeSet<&'static str> {
    let mut walk = Walk {
        syntax,
        found: BTreeSet::new(),
    };
    for (at, view) in syntax.views.iter().enumerate() {
        let Some(condition) = view.condition() else {
            continue;
        };
        if condition.looked_into().is_empty() {
            continue;
        }
        let open = view.from().len();
        walk.view(view, syntax.tables.len() + at);
        walk.mark(open == 3, "exists behind three from items");
        let site = Site {
            open,
            inside: false,
            branch: false,
        };
        walk.cond(condition, site);
    }
    walk.found
}

/// Where a condition or an expression of where stands.
#[derive(Clone, Copy)]
struct Site {
    /// How many from items are open.
    open: usize,
    /// Whether it stands in an exists.
    inside: bool,
    /// Whether it stands in a 06, and this one in no exists further in.
    branch: bool,
}

struct Walk<'a> {
    syntax: &'a Syntax,
    found: BTreeSet<&'static str>,
}

impl Walk<'_> {
    fn mark(&mut self, is: bool, name: &'static str) {
        if is {
            self.found.insert(name);
        }
    }

    /// A view that has an exists.
    fn view(&mut self, view: &View, relation: usize) {
        let aggregate = matches!(view, View::Aggregate(_));
        self.mark(!aggregate, "exists in a basic view");
        self.mark(aggregate, "exists in an aggregate view");
        for other in &self.syntax.views {
            let named = other.from().contains(&(relation as u8));
            let union = matches!(other, View::Union(..));
            let intersection = matches!(other, View::Intersection(..));
            self.mark(named && union, "exists in an operand of a union");
            self.mark(
                named && intersection,
                "exists in an operand of an intersection",
            );
        }
        let goal = self.syntax.goal;
        let asked = asked(self.syntax, usize::from(goal.view)).contains(&relation);
        self.mark(asked && !goal.negative, "exists in the goal");
        self.mark(asked && goal.negative, "exists in the negated goal");
        let below = !asked && relation < usize::from(goal.view);
        self.mark(below, "exists below the goal");
    }

    fn cond(&mut self, condition: &Cond, site: Site) {
        let mut inside = site;
        match condition {
            Cond::Not(a) => self.mark(matches!(**a, Cond::Exists(..)), "not exists"),
            Cond::And(a, b) | Cond::Or(a, b) => {
                let both = [a, b].iter().all(|it| !it.looked_into().is_empty());
                self.mark(both, "exists beside exists");
            }
            Cond::Exists(relation, _) => {
                self.exists(usize::from(*relation), site);
                inside = Site {
                    open: site.open + 1,
                    inside: true,
                    branch: false,
                };
            }
            _ => {}
        }
        self.parts(condition.parts(), inside);
    }

    fn expr(&mut self, expr: &Expr, site: Site) {
        let mut inside = site;
        match expr {
            Expr::Column(place) => {
                let outer = site.inside && usize::from(place.item) + 1 < site.open;
                self.mark(outer, "exists with an outer column");
            }
            Expr::If(..) => inside.branch = true,
            _ => {}
        }
        self.parts(expr.parts(), inside);
    }

    fn parts(&mut self, parts: Parts, site: Site) {
        parts.conds.iter().for_each(|it| self.cond(it, site));
        parts.exprs.iter().for_each(|it| self.expr(it, site));
    }

    fn exists(&mut self, relation: usize, site: Site) {
        self.mark(true, "exists");
        self.mark(site.inside, "exists in exists");
        self.mark(site.branch, "exists in a 06");
        self.mark(site.branch && site.inside, "exists in a 06 in exists");
        self.mark(site.open + 1 == OPEN_ITEMS, "exists with six items open");
        let table = self.syntax.tables.get(relation);
        self.mark(table.is_some(), "exists over a table");
        let empty = table.is_some_and(|it| it.rows == 0);
        self.mark(empty, "exists over a table without rows");
        let Some(view) = self.syntax.view(relation) else {
            return;
        };
        self.mark(true, "exists over a view");
        self.mark(matches!(view, View::Union(..)), "exists over a union");
        let intersection = matches!(view, View::Intersection(..));
        self.mark(intersection, "exists over an intersection");
        let named = |other: &View| other.from().contains(&(relation as u8));
        let goal = usize::from(self.syntax.goal.view) == relation;
        let alone = !goal && !self.syntax.views.iter().any(named);
        self.mark(alone, "exists over a view that nothing else names");
    }
}

/// The views with where that a goal asks about: below set views, their operands.
fn asked(syntax: &Syntax, relation: usize) -> Vec<usize> {
    match syntax.view(relation) {
        Some(View::Union(left, right) | View::Intersection(left, right)) => [left, right]
            .iter()
            .flat_map(|&&operand| asked(syntax, usize::from(operand)))
            .collect(),
        _ => vec![relation],
    }
}

//! A walk over the conditions and expressions of views, which may change them.

use super::Rng;
use crate::syntax::{Cond, Expr, Syntax, View};

/// A part of a view's frame.
#[derive(Clone, Copy, Debug, PartialEq, Eq)]
pub enum Part {
    /// The where condition.
    Where,
    /// The having condition.
    Having,
    /// A select expression.
    Select,
    /// The expression below a 07, wherever that stands.
    Argument,
}

/// Where a condition or an expression stands.
#[derive(Clone, Copy)]
pub struct Site {
    /// The relation number of its view.
    pub view: usize,
    /// The part of that view.
    pub part: Part,
    /// How many from items are open.
    pub open: usize,
}

/// What stands there.
pub enum Spot<'a> {
    /// A condition.
    Cond(&'a mut Cond),
    /// An expression.
    Expr(&'a mut Expr),
}

/// Visits every condition and expression of the views, each before its parts.
pub fn each(syntax: &mut Syntax, visit: &mut dyn FnMut(Site, Spot)) {
    for (at, view) in syntax.views.iter_mut().enumerate() {
        let site = |part| Site {
            view: syntax.tables.len() + at,
            part,
            open: view.from().len(),
        };
        let (within, having, select) = (site(Part::Where), site(Part::Having), site(Part::Select));
        match view {
            View::Basic(basic) => {
                in_cond(&mut basic.condition, within, visit);
                in_exprs(&mut basic.select, select, visit);
            }
            View::Aggregate(grouped) => {
                in_cond(&mut grouped.condition, within, visit);
                in_cond(&mut grouped.having, having, visit);
                in_exprs(&mut grouped.select, select, visit);
            }
            View::Union(..) | View::Intersection(..) => {}
        }
    }
}

fn in_exprs(exprs: &mut [Expr], site: Site, visit: &mut dyn FnMut(Site, Spot)) {
    exprs.iter_mut().for_each(|expr| in_expr(expr, site, visit));
}

fn in_expr(expr: &mut Expr, site: Site, visit: &mut dyn FnMut(Site, Spot)) {
    visit(site, Spot::Expr(expr));
    match expr {
        Expr::Constant(_) | Expr::Column(_) => {}
        Expr::Sum(a, b) | Expr::Difference(a, b) | Expr::Product(a, b) => {
            in_expr(a, site, visit);
            in_expr(b, site, visit);
        }
        Expr::Nearest(_, a) => in_expr(a, site, visit),
        Expr::If(condition, a, b) => {
            in_cond(condition, site, visit);
            in_expr(a, site, visit);
            in_expr(b, site, visit);
        }
        Expr::Aggregate(_, a) => {
            let part = Part::Argument;
            in_expr(a, Site { part, ..site }, visit);
        }
    }
}

fn in_cond(condition: &mut Cond, site: Site, visit: &mut dyn FnMut(Site, Spot)) {
    visit(site, Spot::Cond(condition));
    match condition {
        Cond::True => {}
        Cond::Equal(a, b) | Cond::Less(a, b) | Cond::LessOrEqual(a, b) => {
            in_expr(a, site, visit);
            in_expr(b, site, visit);
        }
        Cond::Not(a) => in_cond(a, site, visit),
        Cond::And(a, b) | Cond::Or(a, b) => {
            in_cond(a, site, visit);
            in_cond(b, site, visit);
        }
        Cond::Exists(_, a) => {
            let open = site.open + 1;
            in_cond(a, Site { open, ..site }, visit);
        }
    }
}

/// Changes one of those that fit, each being as likely; false if there is none.
pub fn change(
    rng: &mut Rng,
    syntax: &mut Syntax,
    fits: impl Fn(Site, &Spot) -> bool,
    change: impl FnOnce(&mut Rng, Site, Spot),
) -> bool {
    let mut count = 0;
    each(syntax, &mut |site, spot| {
        count += usize::from(fits(site, &spot));
    });
    if count == 0 {
        return false;
    }
    let mut left = rng.below(count) + 1;
    let mut change = Some(change);
    each(syntax, &mut |site, spot| {
        left = left.saturating_sub(usize::from(fits(site, &spot)));
        if left == 0 {
            if let Some(change) = change.take() {
                change(rng, site, spot);
            }
        }
    });
    true
}

//! Damage done to a file's syntax: it reads well byte by byte and breaks, or just keeps, a rule on
//! the whole frame or the whole file.

use super::walk::{self, Spot};
use super::Rng;
use crate::syntax::{Aggregate, Column, Expr, Place, Syntax, View, RELATIONS};

/// A syntax with one thing changed.
pub fn spoil(rng: &mut Rng, syntax: &Syntax) -> Syntax {
    let mut changed = syntax.clone();
    match rng.below(13) {
        0 | 1 => aggregate_anywhere(rng, &mut changed),
        2 => column_anywhere(rng, &mut changed),
        3 => other_grouping(rng, &mut changed),
        4 | 5 => longer_from(rng, &mut changed),
        6 => more_rows(rng, &mut changed),
        7 => wide_columns(rng, &mut changed),
        8 => large_values(rng, &mut changed),
        9 => other_pairing(rng, &mut changed),
        10 | 11 => other_operands(rng, &mut changed),
        _ => other_goal(rng, &mut changed),
    }
    changed
}

/// Rule on 07: wraps some expression.
fn aggregate_anywhere(rng: &mut Rng, syntax: &mut Syntax) {
    let kind = *rng.pick(&Aggregate::ALL);
    change_expr(rng, syntax, |expr| {
        *expr = Expr::Aggregate(kind, Box::new(expr.clone()));
    });
}

/// Rule on 07: puts a column where another expression stood.
fn column_anywhere(rng: &mut Rng, syntax: &mut Syntax) {
    let place = Place {
        item: rng.below(3) as u8,
        column: rng.below(3) as u8,
    };
    change_expr(rng, syntax, |expr| *expr = Expr::Column(place));
}

/// Rule on 07: takes away or exchanges a grouping column.
fn other_grouping(rng: &mut Rng, syntax: &mut Syntax) {
    let mut grouped: Vec<&mut Vec<Place>> = syntax
        .views
        .iter_mut()
        .filter_map(|view| match view {
            View::Aggregate(grouped) if !grouped.grouping.is_empty() => Some(&mut grouped.grouping),
            _ => None,
        })
        .collect();
    if grouped.is_empty() {
        return;
    }
    let view = rng.below(grouped.len());
    let grouping = &mut grouped[view];
    let at = rng.below(grouping.len());
    if rng.percent(50) {
        grouping.remove(at);
    } else {
        grouping[at].column = rng.below(4) as u8;
    }
}

/// Row bound: one more relation in a from list.
fn longer_from(rng: &mut Rng, syntax: &mut Syntax) {
    let at = rng.below(syntax.views.len());
    let below = syntax.tables.len() + at;
    let relation = rng.below(below) as u8;
    match &mut syntax.views[at] {
        View::Basic(basic) => basic.from.push(relation),
        View::Aggregate(grouped) => grouped.from.push(relation),
        View::Union(left, _) => *left = relation,
        View::Intersection(left, right) => syntax.views[at] = View::Union(*left, *right),
    }
}

/// Row bound, range of sums, and N: more rows in a table.
fn more_rows(rng: &mut Rng, syntax: &mut Syntax) {
    let at = rng.below(syntax.tables.len());
    syntax.tables[at].rows = if rng.percent(50) {
        8
    } else {
        rng.within(0, 9) as u8
    };
}

/// N and ranges: columns of 4,096, 4,097 or all values.
fn wide_columns(rng: &mut Rng, syntax: &mut Syntax) {
    let ends = [
        (0, 4095),
        (0, 4096),
        (1, 4096),
        (-32768, 32767),
        (-32767, 32767),
    ];
    let one = rng.below(syntax.tables.len());
    let all = rng.percent(30);
    for (number, table) in syntax.tables.iter_mut().enumerate() {
        if number != one && !all {
            continue;
        }
        if rng.percent(60) {
            table.rows = table.rows.min(1 + rng.below(2) as u8);
        }
        for column in &mut table.columns {
            if rng.percent(60) {
                let (lo, hi) = *rng.pick(&ends);
                *column = Column { lo, hi };
            }
        }
    }
}

/// Range: an expression at an end of 32 bits or just past it, or a square of what stood there.
fn large_values(rng: &mut Rng, syntax: &mut Syntax) {
    let (upper, lower) = (Box::new(near_upper()), Box::new(near_lower()));
    match rng.below(6) {
        0 => change_expr(rng, syntax, |expr| *expr = Expr::Sum(upper, number(1))),
        1 => change_expr(rng, syntax, |expr| *expr = Expr::Sum(upper, number(2))),
        2 => change_expr(rng, syntax, |expr| *expr = Expr::Sum(lower, number(0))),
        3 => change_expr(rng, syntax, |expr| {
            *expr = Expr::Difference(lower, number(1))
        }),
        4 => {
            let step = rng.within(1, 1000) as u16;
            change_expr(rng, syntax, |expr| *expr = Expr::Nearest(step, upper));
        }
        _ => change_expr(rng, syntax, |expr| {
            let whole = Box::new(expr.clone());
            let square = Box::new(Expr::Product(whole.clone(), whole));
            *expr = Expr::Product(square.clone(), square);
        }),
    }
}

fn number(value: i16) -> Box<Expr> {
    Box::new(Expr::Constant(value))
}

/// 65,534 and some more.
fn twice(more: i16) -> Box<Expr> {
    let double = Box::new(Expr::Sum(number(i16::MAX), number(i16::MAX)));
    Box::new(Expr::Sum(double, number(more)))
}

/// One below the upper end of 32 bits: 32,767 × (65,534 + 4) = 2^31 - 2.
pub fn near_upper() -> Expr {
    Expr::Product(number(i16::MAX), twice(4))
}

/// The lower end of 32 bits: -32,768 × (65,534 + 2) = -2^31.
pub fn near_lower() -> Expr {
    Expr::Product(number(i16::MIN), twice(2))
}

/// Pairing: pairs taken away, added, doubled or exchanged.
fn other_pairing(rng: &mut Rng, syntax: &mut Syntax) {
    if syntax.keys.is_empty() {
        more_rows(rng, syntax);
        return;
    }
    let tables = syntax.tables.len();
    let at = rng.below(syntax.keys.len());
    let key = &mut syntax.keys[at];
    match rng.below(5) {
        0 => {
            key.pairs.pop();
        }
        1 => {
            let first = key.pairs[0];
            key.pairs.push(first);
        }
        2 => key.pairs[0].1 = rng.below(5) as u8,
        3 => key.pairs[0].0 = rng.below(5) as u8,
        _ => key.parent = rng.below(tables + 1) as u8,
    }
}

/// Set views: other operands, also tables, itself and later relations.
fn other_operands(rng: &mut Rng, syntax: &mut Syntax) {
    let relations = syntax.tables.len() + syntax.views.len();
    let (left, right) = (rng.below(relations + 1), rng.below(relations + 1));
    let (left, right) = (left as u8, right as u8);
    let view = if rng.percent(50) {
        View::Union(left, right)
    } else {
        View::Intersection(left, right)
    };
    let sets: Vec<usize> = (0..syntax.views.len())
        .filter(|&at| matches!(syntax.views[at], View::Union(..) | View::Intersection(..)))
        .collect();
    if sets.is_empty() || rng.percent(20) {
        if relations < RELATIONS {
            syntax.views.push(view);
        }
    } else {
        let at = *rng.pick(&sets);
        syntax.views[at] = view;
    }
}

fn other_goal(rng: &mut Rng, syntax: &mut Syntax) {
    let relations = syntax.tables.len() + syntax.views.len();
    syntax.goal.view = rng.below(relations + 2) as u8;
    syntax.goal.negative = rng.percent(50);
}

/// Changes one expression of the views, each being as likely.
fn change_expr(rng: &mut Rng, syntax: &mut Syntax, change: impl FnOnce(&mut Expr)) {
    let fits = |_, spot: &Spot| matches!(spot, Spot::Expr(_));
    walk::change(rng, syntax, fits, |_, _, spot| {
        if let Spot::Expr(expr) = spot {
            change(expr);
        }
    });
}

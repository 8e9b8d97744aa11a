//! Random trees of every shape, also of files that the format refuses, come back the same.

mod common;

use common::statements;
use reference::gen::Rng;
use reference::syntax::{
    Aggregate, Basic, Column, Cond, Expr, Goal, Grouped, Place, Syntax, Table, View,
};
use rulefile::write::Writer;
use rulefile::{parse, write};

const TREES: u64 = 50_000;

/// How many from items may be open at once.
const OPEN: usize = 6;

/// What draws the trees of a view.
struct Trees {
    rng: Rng,
    /// How many from items are open.
    open: usize,
}

impl Trees {
    fn place(&mut self) -> Place {
        Place {
            item: self.rng.below(self.open) as u8,
            column: self.rng.below(4) as u8,
        }
    }

    fn leaf(&mut self) -> Expr {
        if self.rng.percent(50) {
            return Expr::Column(self.place());
        }
        let any = self.rng.bits() as i16;
        Expr::Constant(*self.rng.pick(&[0, 1, -1, i16::MIN, i16::MAX, any]))
    }

    /// An expression that is at most so deep.
    fn expr(&mut self, depth: usize) -> Expr {
        if depth == 0 || self.rng.percent(15) {
            return self.leaf();
        }
        let below = depth - 1;
        match self.rng.below(7) {
            0 => Expr::Sum(self.boxed(below), self.boxed(below)),
            1 => Expr::Difference(self.boxed(below), self.boxed(below)),
            2 | 3 => Expr::Product(self.boxed(below), self.boxed(below)),
            4 => Expr::Nearest(1 + self.rng.below(1000) as u16, self.boxed(below)),
            5 => Expr::If(self.boxed_cond(below), self.boxed(below), self.boxed(below)),
            _ => Expr::Aggregate(*self.rng.pick(&Aggregate::ALL), self.boxed(below)),
        }
    }

    fn boxed(&mut self, depth: usize) -> Box<Expr> {
        Box::new(self.expr(depth))
    }

    /// A condition that is at most so deep.
    fn cond(&mut self, depth: usize) -> Cond {
        if depth == 0 || self.rng.percent(5) {
            return Cond::True;
        }
        let below = depth - 1;
        match self.rng.below(10) {
            0 => Cond::Equal(self.boxed(below), self.boxed(below)),
            1 => Cond::Less(self.boxed(below), self.boxed(below)),
            2 => Cond::LessOrEqual(self.boxed(below), self.boxed(below)),
            3 => Cond::Not(self.boxed_cond(below)),
            4 | 5 => Cond::And(self.boxed_cond(below), self.boxed_cond(below)),
            6 | 7 => Cond::Or(self.boxed_cond(below), self.boxed_cond(below)),
            _ => self.exists(below),
        }
    }

    fn boxed_cond(&mut self, depth: usize) -> Box<Cond> {
        Box::new(self.cond(depth))
    }

    /// An exists over a table or a view, where one more from item may be opened.
    fn exists(&mut self, depth: usize) -> Cond {
        if self.open == OPEN {
            return Cond::True;
        }
        let relation = self.rng.below(2) as u8;
        self.open += 1;
        let condition = self.boxed_cond(depth);
        self.open -= 1;
        Cond::Exists(relation, condition)
    }

    fn view(&mut self) -> View {
        let from = vec![0; self.open];
        let depth = 1 + self.rng.below(5);
        let condition = self.cond(depth);
        let select = (0..1 + self.rng.below(3)).map(|_| self.expr(depth));
        let select = select.collect();
        if self.rng.percent(50) {
            return View::Basic(Basic {
                from,
                condition,
                select,
            });
        }
        View::Aggregate(Grouped {
            from,
            condition,
            grouping: (0..self.rng.below(5)).map(|_| self.place()).collect(),
            having: self.cond(depth),
            select,
        })
    }
}

/// A table and a view of four columns each, and a view with random trees.
fn syntax(seed: u64) -> Syntax {
    let mut rng = Rng::new(seed);
    let columns = vec![Column { lo: -1, hi: 1 }; 4];
    let key_mask = rng.below(16) as u8;
    let negative = rng.percent(50);
    let open = 1 + rng.below(3);
    let column = |column| Expr::Column(Place { item: 0, column });
    let copy = View::Basic(Basic {
        from: vec![0],
        condition: Cond::True,
        select: (0..4).map(column).collect(),
    });
    Syntax {
        tables: vec![Table {
            rows: 2,
            key_mask,
            columns,
        }],
        keys: Vec::new(),
        views: vec![copy, Trees { rng, open }.view()],
        goal: Goal { view: 2, negative },
    }
}

#[test]
fn random_trees() {
    let mut open = [0; OPEN];
    for seed in 0..TREES {
        let syntax = syntax(seed);
        let readable = write::syntax(&syntax);
        match parse::parse(&readable) {
            Ok(parsed) => assert_eq!(parsed.syntax, syntax, "seed {seed}:\n{readable}"),
            Err(fault) => panic!("seed {seed}: {fault}\n{readable}"),
        }
        for (number, name) in ["a", "b", "c", "d", "e", "f"].into_iter().enumerate() {
            open[number] += usize::from(readable.contains(&format!("(FROM t0 {name}")));
        }
    }
    assert!(
        open[0] == 0 && open[1..].iter().all(|&it| it > 100),
        "{open:?}"
    );
}

/// Parentheses stand where they are needed and, but for `NOT`, nowhere else.
#[test]
fn parentheses() {
    let column = || Box::new(Expr::Column(Place { item: 0, column: 0 }));
    let sum = |a, b| Box::new(Expr::Sum(a, b));
    let product = |a, b| Box::new(Expr::Product(a, b));
    let writer = Writer { tables: 1, open: 1 };
    let shown = |it: Box<Expr>| writer.expr(&it);
    assert_eq!(
        shown(sum(sum(column(), column()), column())),
        "a.c0 + a.c0 + a.c0"
    );
    assert_eq!(
        shown(sum(column(), sum(column(), column()))),
        "a.c0 + (a.c0 + a.c0)"
    );
    assert_eq!(
        shown(sum(column(), product(column(), column()))),
        "a.c0 + a.c0 * a.c0"
    );
    assert_eq!(
        shown(product(sum(column(), column()), column())),
        "(a.c0 + a.c0) * a.c0"
    );
    assert_eq!(
        shown(product(column(), product(column(), column()))),
        "a.c0 * (a.c0 * a.c0)"
    );
}

#[test]
fn conditions_shown() {
    let rules = common::frames(&[
        "01 01 01 00 0000 0003",
        "03 01 00 01 16 15 12 010000 000002 14 11 010000 000001 15 10 16 10 14 14 10 010000",
        "07 01 01",
    ]);
    assert_eq!(
        statements(&rules),
        "TABLE t0 ROWS 1 (c0 0 .. 3);\n\
         VIEW v1 AS\n    SELECT a.c0\n    FROM t0 a\n    \
         WHERE a.c0 < 2 AND NOT (a.c0 = 1) OR TRUE AND (TRUE OR NOT NOT TRUE);\n\
         GOAL NEGATIVE v1;\n"
    );
}

/// An opened item has the letter of its number, and one side by side with another the same.
#[test]
fn exists_shown() {
    let rules = common::frames(&[
        "01 01 01 00 0000 0003",
        "03 02 00 00 01 15 14 17 00 10 17 00 17 00 11 010300 010200 010000",
        "03 01 01 01 16 17 00 16 10 17 01 13 010200 010000 14 11 010000 000001 010000",
        "07 02 01",
    ]);
    assert_eq!(
        statements(&rules),
        "TABLE t0 ROWS 1 (c0 0 .. 3);\n\
         VIEW v1 AS\n    SELECT a.c0\n    FROM t0 a, t0 b\n    \
         WHERE NOT EXISTS (FROM t0 c) AND EXISTS (FROM t0 c WHERE EXISTS (FROM t0 d WHERE d.c0 = c.c0));\n\
         VIEW v2 AS\n    SELECT a.c0\n    FROM v1 a\n    \
         WHERE EXISTS (FROM t0 b WHERE TRUE OR EXISTS (FROM v1 c WHERE c.c0 <= a.c0)) OR NOT (a.c0 = 1);\n\
         GOAL NEGATIVE v2;\n"
    );
    common::round_trip(rules.as_bytes(), "exists");
}

//! Expressions and conditions of a readable text.
//!
//! From loose to tight: `OR`, `AND`, `NOT`, comparisons, `+` and `-`, `*`; all but comparisons and
//! `NOT` take their operands from the left. One descent reads both kinds, since an opening
//! parenthesis does not tell which one follows; each place then says which kind is due.

use crate::cursor::Cursor;
use crate::scope::Scope;
use crate::token::Token;
use crate::Fault;
use reference::syntax::{Aggregate, Cond, Expr};

/// At most so many operators and parentheses in one clause: more than 120 frame bytes hold, few
/// enough to call one function in another.
const OPERATORS: usize = 256;

/// An expression or a condition.
enum Value {
    Expr(Expr),
    Cond(Cond),
}

/// A reader of one clause.
pub struct Express<'c, 'a> {
    cursor: &'c mut Cursor<'a>,
    scope: &'c mut Scope,
    operators: usize,
}

/// An expression from here.
pub fn expr(cursor: &mut Cursor, scope: &mut Scope) -> Result<Expr, Fault> {
    Express::new(cursor, scope).expr()
}

/// A condition from here.
pub fn cond(cursor: &mut Cursor, scope: &mut Scope) -> Result<Cond, Fault> {
    Express::new(cursor, scope).cond()
}

impl<'c, 'a> Express<'c, 'a> {
    fn new(cursor: &'c mut Cursor<'a>, scope: &'c mut Scope) -> Self {
        Express {
            cursor,
            scope,
            operators: 0,
        }
    }

    /// One more operator or parenthesis.
    fn count(&mut self) -> Result<(), Fault> {
        self.operators += 1;
        if self.operators > OPERATORS {
            return self
                .cursor
                .fault("too many operators and parentheses for one frame");
        }
        Ok(())
    }

    fn expr(&mut self) -> Result<Expr, Fault> {
        let line = self.cursor.line();
        self.either()?.expr(line)
    }

    fn cond(&mut self) -> Result<Cond, Fault> {
        let line = self.cursor.line();
        self.either()?.cond(line)
    }

    /// Conditions with `OR` between them.
    fn either(&mut self) -> Result<Value, Fault> {
        let mut left = self.conjunction()?;
        while self.operator("OR")? {
            let line = self.cursor.line();
            let right = self.conjunction()?.boxed_cond(line)?;
            left = Value::Cond(Cond::Or(left.boxed_cond(line)?, right));
        }
        Ok(left)
    }

    /// Conditions with `AND` between them.
    fn conjunction(&mut self) -> Result<Value, Fault> {
        let mut left = self.negation()?;
        while self.operator("AND")? {
            let line = self.cursor.line();
            let right = self.negation()?.boxed_cond(line)?;
            left = Value::Cond(Cond::And(left.boxed_cond(line)?, right));
        }
        Ok(left)
    }

    /// A comparison after any number of `NOT`.
    fn negation(&mut self) -> Result<Value, Fault> {
        let line = self.cursor.line();
        let mut times = 0;
        while self.operator("NOT")? {
            times += 1;
        }
        let mut value = self.comparison()?;
        for _ in 0..times {
            value = Value::Cond(Cond::Not(value.boxed_cond(line)?));
        }
        Ok(value)
    }

    /// A keyword between or before conditions, counted.
    fn operator(&mut self, keyword: &str) -> Result<bool, Fault> {
        let next = self.cursor.keyword(keyword);
        if next {
            self.count()?;
        }
        Ok(next)
    }

    /// One or two sums.
    fn comparison(&mut self) -> Result<Value, Fault> {
        let left = self.sum()?;
        let line = self.cursor.line();
        let make = if self.cursor.symbol("=") {
            Cond::Equal
        } else if self.cursor.symbol("<=") {
            Cond::LessOrEqual
        } else if self.cursor.symbol("<") {
            Cond::Less
        } else {
            return Ok(left);
        };
        self.count()?;
        let right = self.sum()?.boxed_expr(line)?;
        Ok(Value::Cond(make(left.boxed_expr(line)?, right)))
    }

    /// Products with `+` and `-` between them.
    fn sum(&mut self) -> Result<Value, Fault> {
        let mut left = self.product()?;
        loop {
            let line = self.cursor.line();
            let make = if self.cursor.symbol("+") {
                Expr::Sum
            } else if self.cursor.symbol("-") {
                Expr::Difference
            } else {
                return Ok(left);
            };
            self.count()?;
            let right = self.product()?.boxed_expr(line)?;
            left = Value::Expr(make(left.boxed_expr(line)?, right));
        }
    }

    /// Single things with `*` between them.
    fn product(&mut self) -> Result<Value, Fault> {
        let mut left = self.single()?;
        while self.cursor.symbol("*") {
            self.count()?;
            let line = self.cursor.line();
            let right = self.single()?.boxed_expr(line)?;
            left = Value::Expr(Expr::Product(left.boxed_expr(line)?, right));
        }
        Ok(left)
    }

    /// A number, a column, a call, a choice, `TRUE`, `EXISTS`, or something in parentheses.
    fn single(&mut self) -> Result<Value, Fault> {
        if self.cursor.symbol("(") {
            return self.inside();
        }
        if self.cursor.keyword("TRUE") {
            return Ok(Value::Cond(Cond::True));
        }
        if self.cursor.keyword("EXISTS") {
            return self.exists();
        }
        if let Some(Token::Number(_) | Token::Symbol("-")) = self.cursor.peek() {
            return self.constant();
        }
        if self.cursor.keyword("ROUND") {
            return self.rounding();
        }
        if self.cursor.keyword("CASE") {
            return self.choice();
        }
        if let Some(aggregate) = self.aggregate() {
            return self.call(aggregate);
        }
        let place = self.scope.place(self.cursor)?;
        Ok(Value::Expr(Expr::Column(place)))
    }

    fn constant(&mut self) -> Result<Value, Fault> {
        let (low, high) = (i64::from(i16::MIN), i64::from(i16::MAX));
        let value = self.cursor.number(low, high)?;
        Ok(Value::Expr(Expr::Constant(value as i16)))
    }

    /// What follows an opening parenthesis.
    fn inside(&mut self) -> Result<Value, Fault> {
        self.count()?;
        let value = self.either()?;
        self.cursor.need_symbol(")")?;
        Ok(value)
    }

    /// What follows `EXISTS`. Its from item is open inside its parentheses alone.
    fn exists(&mut self) -> Result<Value, Fault> {
        self.count()?;
        if self.scope.is_full() {
            let what = "there are more than 6 from items with those of EXISTS";
            return self.cursor.fault(what);
        }
        self.cursor.need_symbol("(")?;
        self.cursor.need_keyword("FROM")?;
        let relation = self.scope.open(self.cursor)?;
        let condition = if self.cursor.keyword("WHERE") {
            self.cond()?
        } else {
            Cond::True
        };
        self.scope.close();
        self.cursor.need_symbol(")")?;
        Ok(Value::Cond(Cond::Exists(relation, Box::new(condition))))
    }

    /// What follows `ROUND`.
    fn rounding(&mut self) -> Result<Value, Fault> {
        self.count()?;
        self.cursor.need_symbol("(")?;
        let rounded = self.expr()?;
        self.cursor.need_symbol(",")?;
        let step = self.cursor.number(1, 1000)? as u16;
        self.cursor.need_symbol(")")?;
        Ok(Value::Expr(Expr::Nearest(step, Box::new(rounded))))
    }

    /// What follows `CASE`.
    fn choice(&mut self) -> Result<Value, Fault> {
        self.count()?;
        self.cursor.need_keyword("WHEN")?;
        let condition = Box::new(self.cond()?);
        self.cursor.need_keyword("THEN")?;
        let first = Box::new(self.expr()?);
        self.cursor.need_keyword("ELSE")?;
        let second = Box::new(self.expr()?);
        self.cursor.need_keyword("END")?;
        Ok(Value::Expr(Expr::If(condition, first, second)))
    }

    /// Takes the name of an aggregate, if one is next.
    fn aggregate(&mut self) -> Option<Aggregate> {
        let names = [
            ("COUNT", Aggregate::Count),
            ("SUM", Aggregate::Sum),
            ("MIN", Aggregate::Min),
            ("MAX", Aggregate::Max),
        ];
        let named = names.into_iter().find(|it| self.cursor.keyword(it.0));
        named.map(|it| it.1)
    }

    /// What follows the name of an aggregate.
    fn call(&mut self, aggregate: Aggregate) -> Result<Value, Fault> {
        self.count()?;
        self.cursor.need_symbol("(")?;
        let of = Box::new(self.expr()?);
        self.cursor.need_symbol(")")?;
        Ok(Value::Expr(Expr::Aggregate(aggregate, of)))
    }
}

impl Value {
    fn expr(self, line: usize) -> Result<Expr, Fault> {
        match self {
            Value::Expr(expr) => Ok(expr),
            Value::Cond(_) => Err(Fault {
                line,
                what: "a condition stands where an expression is due".to_owned(),
            }),
        }
    }

    fn cond(self, line: usize) -> Result<Cond, Fault> {
        match self {
            Value::Cond(cond) => Ok(cond),
            Value::Expr(_) => Err(Fault {
                line,
                what: "an expression stands where a condition is due".to_owned(),
            }),
        }
    }

    fn boxed_expr(self, line: usize) -> Result<Box<Expr>, Fault> {
        self.expr(line).map(Box::new)
    }

    fn boxed_cond(self, line: usize) -> Result<Box<Cond>, Fault> {
        self.cond(line).map(Box::new)
    }
}

//! Reading a whole text, with refusals 1 to 10 in the order of "Who can cause a refusal".

use crate::candidates;
use crate::frame::{Known, Number, Reader};
use crate::range::{Range, Setting};
use crate::syntax::{
    Cond, Expr, File, ForeignKey, Goal, Grouped, Place, Refusal, Syntax, Table, View, CANDIDATES,
    FOREIGN_KEYS, RELATIONS, ROW_BOUND,
};
use crate::text;

/// The file of a text, or the first refusal.
///
/// "Order: ... 1, 2 over the whole text, then frames in turn, then 3 for no goal, 10".
pub fn read(text: &[u8]) -> Result<File, Refusal> {
    let frames = text::frames(text)?;
    let mut reading = Reading::default();
    for (above, frame) in frames.iter().enumerate() {
        reading.frame(frame).map_err(|number| Refusal {
            number,
            line: above as u16 + 1,
        })?;
    }
    reading.finish()
}

/// What has been read so far.
#[derive(Default)]
struct Reading {
    tables: Vec<Table>,
    keys: Vec<ForeignKey>,
    views: Vec<View>,
    goal: Option<Goal>,
    columns: Vec<usize>,
    row_bounds: Vec<u64>,
    ranges: Vec<Vec<Range>>,
}

impl Reading {
    /// One frame. "Within a frame, 3, then a 17th relation or key, then bytes left to right for 4,
    /// 5, 6, a surplus byte last; then whole-frame rules".
    fn frame(&mut self, frame: &[u8]) -> Result<(), Number> {
        let kind = frame[0];
        if !self.in_order(kind) {
            return Err(3);
        }
        if self.no_place_left(kind) {
            return Err(5);
        }
        let known = Known {
            columns: &self.columns,
            tables: self.tables.len(),
        };
        let reader = Reader::new(&frame[1..], known);
        match kind {
            1 => {
                let table = reader.table()?;
                self.add_table(table);
            }
            2 => {
                let key = reader.foreign_key()?;
                self.add_key(key)?;
            }
            3 => {
                let view = reader.basic()?;
                self.add_view(view)?;
            }
            4 => {
                let view = reader.grouped()?;
                self.add_view(view)?;
            }
            5 => {
                let (left, right) = reader.set()?;
                self.add_view(View::Union(left, right))?;
            }
            6 => {
                let (left, right) = reader.set()?;
                self.add_view(View::Intersection(left, right))?;
            }
            _ => self.goal = Some(reader.goal()?),
        }
        Ok(())
    }

    /// "Order: tables, foreign keys, views, one goal, nothing after it." No least number of any is
    /// given, so each may also stand first.
    fn in_order(&self, kind: u8) -> bool {
        let open = self.goal.is_none();
        match kind {
            1 => open && self.keys.is_empty() && self.views.is_empty(),
            2 => open && self.views.is_empty(),
            3..=7 => open,
            _ => false,
        }
    }

    /// "a 17th relation or foreign key".
    fn no_place_left(&self, kind: u8) -> bool {
        match kind {
            1 | 3..=6 => self.columns.len() == RELATIONS,
            2 => self.keys.len() == FOREIGN_KEYS,
            _ => false,
        }
    }

    fn add_table(&mut self, table: Table) {
        let ranges = table
            .columns
            .iter()
            .map(|column| Range::new(i64::from(column.lo), i64::from(column.hi)))
            .collect();
        self.add_relation(u64::from(table.rows), ranges);
        self.tables.push(table);
    }

    fn add_relation(&mut self, row_bound: u64, ranges: Vec<Range>) {
        self.columns.push(ranges.len());
        self.row_bounds.push(row_bound);
        self.ranges.push(ranges);
    }

    /// Whole-frame rule 6 of a foreign key: "The parent columns are exactly the parent's key, each
    /// once." A child column may stand in two pairs.
    fn add_key(&mut self, key: ForeignKey) -> Result<(), Number> {
        let mut named: Vec<usize> = key.pairs.iter().map(|pair| usize::from(pair.1)).collect();
        named.sort_unstable();
        if named != self.tables[usize::from(key.parent)].key_columns() {
            return Err(6);
        }
        self.keys.push(key);
        Ok(())
    }

    /// The whole-frame rules of a view, "6 (pairing, column counts), 7, 8, 9".
    fn add_view(&mut self, view: View) -> Result<(), Number> {
        if !self.column_counts_agree(&view) {
            return Err(6);
        }
        if !rule_on_07(&view) {
            return Err(7);
        }
        let bound = self.row_bound(&view);
        if bound > ROW_BOUND {
            return Err(8);
        }
        let ranges = self.view_ranges(&view, bound).ok_or(9)?;
        self.add_relation(bound, ranges);
        self.views.push(view);
        Ok(())
    }

    /// "two earlier views with equally many columns".
    fn column_counts_agree(&self, view: &View) -> bool {
        match view {
            View::Union(left, right) | View::Intersection(left, right) => {
                self.columns[usize::from(*left)] == self.columns[usize::from(*right)]
            }
            _ => true,
        }
    }

    /// "03 and 04, the product over the from list; union, the sum; intersection, the smaller."
    /// The product is judged as a whole: a factor 0 makes it 0.
    fn row_bound(&self, view: &View) -> u64 {
        let bound = |relation: &u8| self.row_bounds[usize::from(*relation)];
        match view {
            View::Basic(basic) => basic.from.iter().map(bound).product(),
            View::Aggregate(grouped) => grouped.from.iter().map(bound).product(),
            View::Union(left, right) => bound(left) + bound(right),
            View::Intersection(left, right) => bound(left).min(bound(right)),
        }
    }

    /// "A column of 03 or 04 has its select expression's range. Union columns take hulls;
    /// intersection keeps the left's." Every expression of where and having must fit as well.
    fn view_ranges(&self, view: &View, bound: u64) -> Option<Vec<Range>> {
        match view {
            View::Basic(basic) => {
                let items = self.items(&basic.from);
                let setting = self.setting(&items, bound);
                setting.cond(&basic.condition)?;
                basic.select.iter().map(|expr| setting.expr(expr)).collect()
            }
            View::Aggregate(grouped) => {
                let items = self.items(&grouped.from);
                let setting = self.setting(&items, bound);
                setting.cond(&grouped.condition)?;
                setting.cond(&grouped.having)?;
                let select = grouped.select.iter();
                select.map(|expr| setting.expr(expr)).collect()
            }
            View::Union(left, right) => {
                let left = self.ranges[usize::from(*left)].iter();
                let right = self.ranges[usize::from(*right)].iter();
                Some(left.zip(right).map(|(a, b)| a.hull(*b)).collect())
            }
            View::Intersection(left, _) => Some(self.ranges[usize::from(*left)].clone()),
        }
    }

    fn items(&self, from: &[u8]) -> Vec<&[Range]> {
        let ranges = |relation: &u8| self.ranges[usize::from(*relation)].as_slice();
        from.iter().map(ranges).collect()
    }

    fn setting<'a>(&'a self, items: &'a [&'a [Range]], bound: u64) -> Setting<'a> {
        Setting {
            items,
            relations: &self.ranges,
            bound,
        }
    }

    /// "then 3 for no goal, 10".
    fn finish(self) -> Result<File, Refusal> {
        let goal = self.goal.ok_or(Refusal { number: 3, line: 0 })?;
        let candidates = candidates::number(&self.tables)
            .filter(|number| *number <= CANDIDATES)
            .ok_or(Refusal {
                number: 10,
                line: 0,
            })?;
        Ok(File {
            syntax: Syntax {
                tables: self.tables,
                keys: self.keys,
                views: self.views,
                goal,
            },
            row_bounds: self.row_bounds,
            ranges: self.ranges,
            candidates,
        })
    }
}

/// "Token 07 may stand only in the having and select of an aggregate view, and not inside another
/// 07. There, a column outside 07 must be a grouping column." Of token 17: "It may stand only within
/// where conditions; elsewhere it breaks the rule on 07."
fn rule_on_07(view: &View) -> bool {
    match view {
        View::Basic(basic) => {
            Level::Where.cond(&basic.condition)
                && basic.select.iter().all(|expr| Level::Member.expr(expr))
        }
        View::Aggregate(Grouped {
            condition,
            grouping,
            having,
            select,
            ..
        }) => {
            let group = Level::Group(grouping);
            Level::Where.cond(condition)
                && group.cond(having)
                && select.iter().all(|expr| group.expr(expr))
        }
        View::Union(..) | View::Intersection(..) => true,
    }
}

/// Where an expression stands for the rule on 07.
#[derive(Clone, Copy)]
enum Level<'a> {
    /// Worked out for one combination, within where: any column, no 07, and 17.
    Where,
    /// Worked out for one combination elsewhere: any column, neither 07 nor 17. So it is in the
    /// select of a basic view, and below a 07.
    Member,
    /// Worked out for a group: its grouping columns, and 07, and no 17.
    Group(&'a [Place]),
}

impl Level<'_> {
    fn expr(self, expr: &Expr) -> bool {
        match expr {
            Expr::Constant(_) => true,
            // A grouping column is the pair (from item, column).
            Expr::Column(place) => match self {
                Level::Where | Level::Member => true,
                Level::Group(grouping) => grouping.contains(place),
            },
            Expr::Sum(a, b) | Expr::Difference(a, b) | Expr::Product(a, b) => {
                self.expr(a) && self.expr(b)
            }
            Expr::Nearest(_, a) => self.expr(a),
            Expr::If(condition, a, b) => self.cond(condition) && self.expr(a) && self.expr(b),
            Expr::Aggregate(_, a) => match self {
                Level::Where | Level::Member => false,
                Level::Group(_) => Level::Member.expr(a),
            },
        }
    }

    fn cond(self, condition: &Cond) -> bool {
        match condition {
            Cond::True => true,
            Cond::Equal(a, b) | Cond::Less(a, b) | Cond::LessOrEqual(a, b) => {
                self.expr(a) && self.expr(b)
            }
            Cond::Not(a) => self.cond(a),
            Cond::And(a, b) | Cond::Or(a, b) => self.cond(a) && self.cond(b),
            Cond::Exists(_, a) => matches!(self, Level::Where) && self.cond(a),
        }
    }
}

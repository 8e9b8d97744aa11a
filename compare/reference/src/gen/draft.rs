//! Random tables, foreign keys, views and goals.

use super::express::{all_places, Bytes, Outlook, Scope};
use super::{Rng, Size};
use crate::candidates;
use crate::layout;
use crate::range::{Range, Setting};
use crate::syntax::{
    Basic, Column, Expr, ForeignKey, Goal, Grouped, Place, Syntax, Table, View, FOREIGN_KEYS,
    RELATIONS, ROW_BOUND,
};
use crate::text::FRAME_BYTES;

/// A file in the making.
pub struct Draft<'a> {
    rng: &'a mut Rng,
    size: Size,
    tables: Vec<Table>,
    keys: Vec<ForeignKey>,
    views: Vec<View>,
    bounds: Vec<u64>,
    ranges: Vec<Vec<Range>>,
}

impl Draft<'_> {
    /// An empty draft.
    pub fn new(rng: &mut Rng, size: Size) -> Draft<'_> {
        Draft {
            rng,
            size,
            tables: Vec::new(),
            keys: Vec::new(),
            views: Vec::new(),
            bounds: Vec::new(),
            ranges: Vec::new(),
        }
    }

    /// A whole file.
    pub fn finish(mut self) -> Syntax {
        self.draw_tables();
        self.draw_keys();
        self.draw_views();
        let first = self.tables.len();
        let last = first + self.views.len() - 1;
        let view = if self.rng.percent(70) {
            last
        } else {
            self.rng.within(first as i64, last as i64) as usize
        };
        let mut syntax = Syntax {
            tables: self.tables,
            keys: self.keys,
            views: self.views,
            goal: Goal {
                view: view as u8,
                negative: self.rng.percent(45),
            },
        };
        if self.rng.percent(4) {
            fill(self.rng, &mut syntax);
        }
        syntax
    }

    fn draw_tables(&mut self) {
        let count = self.rng.weighted(&[(35, 1), (35, 2), (20, 3), (10, 4)]);
        let base = self.rng.within(-3, 2);
        for _ in 0..count {
            let rows = self.rng.weighted(&[
                (6, 0),
                (30, 1),
                (30, 2),
                (16, 3),
                (8, 4),
                (3, 5),
                (2, 6),
                (2, 7),
                (3, 8),
            ]);
            let columns = self.rng.weighted(&[(35, 1), (35, 2), (18, 3), (12, 4)]);
            let columns = (0..columns).map(|_| self.lone_column(base)).collect();
            self.tables.push(Table {
                rows,
                key_mask: 0,
                columns,
            });
        }
        self.widen();
        for at in 0..self.tables.len() {
            if self.rng.percent(55) {
                self.tables[at].key_mask = self.key_mask(at);
            }
            let table = &self.tables[at];
            let range = |column: &Column| Range::new(i64::from(column.lo), i64::from(column.hi));
            self.bounds.push(u64::from(table.rows));
            self.ranges.push(table.columns.iter().map(range).collect());
        }
    }

    /// A key, in general one with as many values as the table has rows.
    fn key_mask(&mut self, table: usize) -> u8 {
        let table = &self.tables[table];
        let columns = &table.columns;
        let values = |mask: u8| -> u64 {
            let inside = (0..columns.len()).filter(|column| mask >> column & 1 == 1);
            inside.map(|column| columns[column].size()).product()
        };
        let masks = 1..1u8 << columns.len();
        let roomy: Vec<u8> = masks
            .clone()
            .filter(|&mask| values(mask) >= u64::from(table.rows))
            .collect();
        if self.rng.percent(5) {
            self.rng.within(1, i64::from(masks.end) - 1) as u8
        } else if roomy.is_empty() {
            0
        } else {
            *self.rng.pick(&roomy)
        }
    }

    /// A column of one value, near the others more often than not.
    fn lone_column(&mut self, base: i64) -> Column {
        let lo = match self.rng.below(20) {
            0 => *self.rng.pick(&[-32768, -32767, 32766, 32767, 0]),
            1 => self.rng.within(-32768, 32767),
            2..=4 => self.rng.within(-12, 12),
            _ => base,
        } as i16;
        Column { lo, hi: lo }
    }

    /// Gives columns more values as long as there are few candidates.
    fn widen(&mut self) {
        let limit = self.rng.within(1, self.size.candidates as i64) as u64;
        for _ in 0..24 {
            let table = self.rng.below(self.tables.len());
            let column = self.rng.below(self.tables[table].columns.len());
            let more = self.rng.weighted(&[(12, 1), (6, 2), (3, 5), (1, 40)]);
            let old = self.tables[table].columns[column];
            let Some(hi) = old.hi.checked_add(more) else {
                continue;
            };
            self.tables[table].columns[column].hi = hi;
            if candidates::number(&self.tables).is_none_or(|number| number > limit) {
                self.tables[table].columns[column] = old;
            }
        }
    }

    fn draw_keys(&mut self) {
        let keyed: Vec<usize> = (0..self.tables.len())
            .filter(|&table| self.tables[table].key_mask != 0)
            .collect();
        if keyed.is_empty() {
            return;
        }
        let most = FOREIGN_KEYS as i64;
        let count = match self.rng.below(20) {
            0..=9 => 0,
            10..=15 => 1,
            16..=18 => 2,
            _ => self.rng.within(3, most),
        };
        for _ in 0..count {
            let parent = *self.rng.pick(&keyed);
            let child = self.rng.below(self.tables.len());
            let mut columns = self.tables[parent].key_columns();
            for at in (1..columns.len()).rev() {
                columns.swap(at, self.rng.below(at + 1));
            }
            let pairs: Vec<(u8, u8)> = columns
                .into_iter()
                .map(|column| (self.child_column(child, parent, column), column as u8))
                .collect();
            if !self.can_hold(child, parent, &pairs) && self.rng.percent(95) {
                continue;
            }
            self.keys.push(ForeignKey {
                child: child as u8,
                parent: parent as u8,
                pairs,
            });
        }
    }

    /// Whether a child row, if there is one, can have a parent.
    fn can_hold(&self, child: usize, parent: usize, pairs: &[(u8, u8)]) -> bool {
        let (child, parent) = (&self.tables[child], &self.tables[parent]);
        let shared = |&(from, to): &(u8, u8)| {
            let here = child.columns[usize::from(from)];
            let there = parent.columns[usize::from(to)];
            here.lo <= there.hi && there.lo <= here.hi
        };
        child.rows == 0 || parent.rows > 0 && pairs.iter().all(shared)
    }

    /// A column of the child, in general one that shares values with the parent's column.
    fn child_column(&mut self, child: usize, parent: usize, column: usize) -> u8 {
        let there = self.tables[parent].columns[column];
        let columns = &self.tables[child].columns;
        let sharing: Vec<usize> = (0..columns.len())
            .filter(|&at| columns[at].lo <= there.hi && there.lo <= columns[at].hi)
            .collect();
        if sharing.is_empty() || self.rng.percent(10) {
            self.rng.below(columns.len()) as u8
        } else {
            *self.rng.pick(&sharing) as u8
        }
    }

    fn draw_views(&mut self) {
        let most = RELATIONS - self.tables.len();
        let count = match self.rng.below(20) {
            0 => most,
            1..=4 => 1,
            _ => 1 + self.rng.below(6),
        };
        while self.views.len() < count {
            let view = match self.rng.below(100) {
                0..=39 => self.basic(),
                40..=71 => self.grouped(),
                _ => match self.set() {
                    Some(view) => view,
                    None => self.basic(),
                },
            };
            self.views.push(view);
        }
    }

    /// A from list whose row bounds multiply to no more than allowed, later relations preferred.
    fn from(&mut self) -> (Vec<u8>, u64) {
        let wanted = self.rng.weighted(&[(50, 1), (38, 2), (12, 3)]);
        let mut from = Vec::new();
        let mut bound = 1;
        for _ in 0..12 {
            let count = self.bounds.len();
            let relation = if self.rng.percent(55) {
                count - 1 - self.rng.below(count.min(2))
            } else {
                self.rng.below(count)
            };
            let product = bound * self.bounds[relation];
            if from.len() < wanted && product <= self.size.row_bound {
                from.push(relation as u8);
                bound = product;
            }
        }
        if from.is_empty() {
            from.push(0);
            bound = self.bounds[0];
        }
        (from, bound)
    }

    fn select_count(&mut self) -> usize {
        self.rng.weighted(&[
            (40, 1),
            (34, 2),
            (14, 3),
            (5, 4),
            (3, 5),
            (2, 6),
            (1, 7),
            (1, 8),
        ])
    }

    fn basic(&mut self) -> View {
        let (from, bound) = self.from();
        let count = self.select_count();
        let (ranges, bounds) = (self.ranges.clone(), self.bounds.clone());
        let items = items(&ranges, &from);
        let setting = Setting {
            items: &items,
            relations: &ranges,
            bound,
        };
        let scope = scope(setting, None);
        let mut bytes = Bytes::new(self.rng, 3 + from.len(), 3 * count);
        let condition = bytes.cond(self.rng, within_where(setting, &bounds), 1);
        let select: Vec<Expr> = (0..count).map(|_| bytes.expr(self.rng, scope)).collect();
        self.add(bound, selected(setting, &select));
        View::Basic(Basic {
            from,
            condition,
            select,
        })
    }

    fn grouped(&mut self) -> View {
        let (from, bound) = self.from();
        let count = self.select_count();
        let (ranges, bounds) = (self.ranges.clone(), self.bounds.clone());
        let items = items(&ranges, &from);
        let setting = Setting {
            items: &items,
            relations: &ranges,
            bound,
        };
        let places = all_places(&items);
        let groupings = self
            .rng
            .weighted(&[(30, 0), (42, 1), (18, 2), (6, 3), (4, 4)]);
        let grouping: Vec<Place> = (0..groupings).map(|_| *self.rng.pick(&places)).collect();
        let group = scope(setting, Some(&grouping));
        let taken = 4 + from.len() + 2 * groupings;
        let mut bytes = Bytes::new(self.rng, taken, 3 * count);
        let condition = bytes.cond(self.rng, within_where(setting, &bounds), 2);
        let having = bytes.cond(self.rng, group, 1);
        let select: Vec<Expr> = (0..count).map(|_| bytes.expr(self.rng, group)).collect();
        self.add(bound, selected(setting, &select));
        View::Aggregate(Grouped {
            from,
            condition,
            grouping,
            having,
            select,
        })
    }

    fn set(&mut self) -> Option<View> {
        let first = self.tables.len();
        let all = || first..first + self.views.len();
        let mut pairs = Vec::new();
        for left in all() {
            for right in all() {
                if self.ranges[left].len() == self.ranges[right].len() {
                    pairs.push((left, right));
                }
            }
        }
        if pairs.is_empty() {
            return None;
        }
        let (left, right) = *self.rng.pick(&pairs);
        let sum = self.bounds[left] + self.bounds[right];
        let least = self.bounds[left].min(self.bounds[right]);
        if sum <= ROW_BOUND && self.rng.percent(50) {
            let both = self.ranges[left].iter().zip(&self.ranges[right]);
            let hulls = both.map(|(a, b)| a.hull(*b)).collect();
            self.add(sum, hulls);
            Some(View::Union(left as u8, right as u8))
        } else {
            self.add(least, self.ranges[left].clone());
            Some(View::Intersection(left as u8, right as u8))
        }
    }

    fn add(&mut self, bound: u64, ranges: Vec<Range>) {
        self.bounds.push(bound);
        self.ranges.push(ranges);
    }
}

/// Fills a frame up to its 120 bytes, or to one less, by `not` before its where condition.
fn fill(rng: &mut Rng, syntax: &mut Syntax) {
    let at = rng.below(syntax.views.len());
    let frames = layout::frames(syntax);
    let length = frames[syntax.tables.len() + syntax.keys.len() + at].len();
    let condition = match &mut syntax.views[at] {
        View::Basic(basic) => &mut basic.condition,
        View::Aggregate(grouped) => &mut grouped.condition,
        View::Union(..) | View::Intersection(..) => return,
    };
    let most = FRAME_BYTES - rng.below(2);
    for _ in length..most {
        *condition = condition.negated();
    }
}

fn items<'a>(ranges: &'a [Vec<Range>], from: &[u8]) -> Vec<&'a [Range]> {
    let of = |relation: &u8| ranges[usize::from(*relation)].as_slice();
    from.iter().map(of).collect()
}

/// Outside where.
fn scope<'a>(setting: Setting<'a>, group: Option<&'a [Place]>) -> Scope<'a> {
    Scope {
        setting,
        group,
        exists: None,
    }
}

fn within_where<'a>(setting: Setting<'a>, bounds: &'a [u64]) -> Scope<'a> {
    let combinations = setting.bound.max(1);
    Scope {
        setting,
        group: None,
        exists: Some(Outlook {
            bounds,
            combinations,
        }),
    }
}

fn selected(setting: Setting, select: &[Expr]) -> Vec<Range> {
    let range = |expr: &Expr| setting.expr(expr).unwrap_or(Range::WHOLE);
    select.iter().map(range).collect()
}

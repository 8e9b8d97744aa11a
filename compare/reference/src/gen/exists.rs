//! Damage done to exists, and done by it.

use super::damage::any_byte;
use super::spoil::{near_lower, near_upper};
use super::walk::{self, Part, Site, Spot};
use super::Rng;
use crate::check;
use crate::layout::{self, Form};
use crate::syntax::{Aggregate, Cond, Expr, Grouped, Place, Syntax, View, OPEN_ITEMS, RELATIONS};
use crate::text::{self, FRAME_BYTES};

/// A way to go wrong with exists.
#[derive(Clone, Copy, Debug, PartialEq, Eq, PartialOrd, Ord)]
pub enum Way {
    /// Its token is changed.
    Token,
    /// Its relation is changed.
    Relation,
    /// A byte of its condition is changed.
    Inside,
    /// The frame ends within it.
    Cut,
    /// It opens a seventh item.
    Seventh,
    /// The same, and its relation is missing.
    SeventhCut,
    /// The same, and its relation is not there.
    SeventhLater,
    /// Its relation is the view itself or a later one.
    Later,
    /// A column of its item is read where it is closed.
    Closed,
    /// It stands in having.
    Having,
    /// It stands in select.
    Select,
    /// It stands below a 07.
    Argument,
    /// A 07 stands in it.
    Aggregate,
    /// A range in it is just beyond 32 bits, or just within.
    Range,
}

/// All ways.
pub const WAYS: [Way; 14] = [
    Way::Token,
    Way::Relation,
    Way::Inside,
    Way::Cut,
    Way::Seventh,
    Way::SeventhCut,
    Way::SeventhLater,
    Way::Later,
    Way::Closed,
    Way::Having,
    Way::Select,
    Way::Argument,
    Way::Aggregate,
    Way::Range,
];

impl Way {
    /// The refusals that it leads to. A changed byte, and a range just within, may also lead to an
    /// accepted file; a changed byte, seldom, to other refusals.
    pub fn refusals(self) -> &'static [u8] {
        match self {
            Way::Token => &[4, 6],
            Way::Inside => &[4, 5, 6],
            Way::Cut => &[4],
            Way::Seventh | Way::SeventhCut | Way::SeventhLater => &[5],
            Way::Relation | Way::Later | Way::Closed => &[6],
            Way::Having | Way::Select | Way::Argument | Way::Aggregate => &[7],
            Way::Range => &[9],
        }
    }

    /// Whether it may be put there.
    fn fits(self, site: Site) -> bool {
        match self {
            // Bytes are read alike in every part.
            Way::Seventh | Way::SeventhCut | Way::SeventhLater => true,
            Way::Later | Way::Closed => site.open < OPEN_ITEMS,
            Way::Having => site.part == Part::Having,
            Way::Select => site.part == Part::Select,
            Way::Argument => site.part == Part::Argument,
            _ => site.part == Part::Where && site.open < OPEN_ITEMS,
        }
    }

    /// Whether it needs no more than an exists that is there already.
    fn is_of_bytes(self) -> bool {
        matches!(self, Way::Token | Way::Relation | Way::Inside | Way::Cut)
    }
}

/// The text of a syntax gone wrong in a way.
pub fn wrong(rng: &mut Rng, syntax: &Syntax, way: Way) -> Vec<u8> {
    let mut changed = syntax.clone();
    let there = way.is_of_bytes() && !layout::exists_forms(syntax).is_empty();
    if !there && !put(rng, &mut changed, way, |site| way.fits(site)) {
        changed = with_plain_view(rng, syntax);
        let last = changed.tables.len() + changed.views.len() - 1;
        put(rng, &mut changed, way, |site| {
            way.fits(site) && site.view == last
        });
    }
    let mut frames = layout::frames(&changed);
    change_bytes(rng, &mut frames, &layout::exists_forms(&changed), way);
    text::lines(&frames)
}

/// Puts a form into one of the places; false if there is none, or if a frame becomes too long.
fn put(rng: &mut Rng, syntax: &mut Syntax, way: Way, fits: impl Fn(Site) -> bool) -> bool {
    let found = walk::change(
        rng,
        syntax,
        |site, _| fits(site),
        |rng, site, spot| {
            let form = form(rng, site, way);
            match spot {
                Spot::Cond(condition) => *condition = beside(rng, form, condition.clone()),
                Spot::Expr(expr) => {
                    let whole = Box::new(expr.clone());
                    *expr = Expr::If(Box::new(form), whole, Box::new(Expr::Constant(0)));
                }
            }
        },
    );
    let mut frames = layout::frames(syntax).into_iter();
    found && frames.all(|frame| frame.len() <= FRAME_BYTES)
}

/// A form in the place of another condition, or beside it.
fn beside(rng: &mut Rng, form: Cond, condition: Cond) -> Cond {
    let (form, condition) = (Box::new(form), Box::new(condition));
    match rng.below(4) {
        0 => *form,
        1 => Cond::Not(form),
        2 => Cond::And(form, condition),
        _ => Cond::Or(condition, form),
    }
}

/// A syntax with one more view, which has a place for every way; of 16 relations it is the last.
fn with_plain_view(rng: &mut Rng, syntax: &Syntax) -> Syntax {
    let mut changed = syntax.clone();
    if changed.tables.len() + changed.views.len() == RELATIONS {
        changed.views.pop();
    }
    let relations = changed.tables.len() + changed.views.len();
    let count = Expr::Aggregate(Aggregate::Count, Box::new(Expr::Constant(0)));
    changed.views.push(View::Aggregate(Grouped {
        from: vec![rng.below(relations) as u8],
        condition: Cond::True,
        grouping: Vec::new(),
        having: Cond::True,
        select: vec![count],
    }));
    changed
}

/// What is put at a site.
fn form(rng: &mut Rng, site: Site, way: Way) -> Cond {
    let below = |rng: &mut Rng| rng.below(site.view) as u8;
    let later = |rng: &mut Rng| {
        let view = site.view as u8;
        *rng.pick(&[view, view + 1, view + 2, 0x17, u8::MAX])
    };
    let relation = match way {
        Way::Later | Way::SeventhLater => later(rng),
        _ => below(rng),
    };
    let exists = |condition| Cond::Exists(relation, Box::new(condition));
    match way {
        Way::Seventh | Way::SeventhCut | Way::SeventhLater => {
            let seventh = exists(Cond::True);
            (site.open..OPEN_ITEMS).fold(seventh, |inner, _| {
                Cond::Exists(below(rng), Box::new(inner))
            })
        }
        Way::Closed => {
            let closed = equal(column(site.open), Expr::Constant(0));
            Cond::And(Box::new(exists(Cond::True)), Box::new(closed))
        }
        Way::Aggregate => {
            let kind = *rng.pick(&Aggregate::ALL);
            let aggregate = Expr::Aggregate(kind, Box::new(column(site.open)));
            exists(equal(aggregate, Expr::Constant(0)))
        }
        Way::Range => exists(equal(large(rng, site), Expr::Constant(0))),
        _ => exists(inside(rng, site)),
    }
}

fn equal(a: Expr, b: Expr) -> Cond {
    Cond::Equal(Box::new(a), Box::new(b))
}

/// The first column of an item, which every relation has.
fn column(item: usize) -> Expr {
    Expr::Column(Place {
        item: item as u8,
        column: 0,
    })
}

/// A condition inside an exists at a site: of its own row, or with an outer one.
fn inside(rng: &mut Rng, site: Site) -> Cond {
    match rng.below(3) {
        0 => Cond::True,
        1 => equal(column(site.open), Expr::Constant(rng.within(-2, 2) as i16)),
        _ => equal(column(rng.below(site.open)), column(site.open)),
    }
}

/// An expression inside an exists at a site, at an end of 32 bits: a number decides whether it is
/// past the end, or the range of the item that is opened.
fn large(rng: &mut Rng, site: Site) -> Expr {
    let more = match rng.below(5) {
        0 => Expr::Constant(0),
        1 | 2 => Expr::Constant(2),
        _ => column(site.open),
    };
    if rng.percent(50) {
        Expr::Sum(Box::new(near_upper()), Box::new(more))
    } else {
        Expr::Difference(Box::new(near_lower()), Box::new(more))
    }
}

/// The change of bytes that belongs to a way.
fn change_bytes(rng: &mut Rng, frames: &mut [Vec<u8>], forms: &[Form], way: Way) {
    let form = match way {
        Way::SeventhCut => forms.iter().find(|form| form.item == OPEN_ITEMS),
        _ if way.is_of_bytes() && !forms.is_empty() => Some(rng.pick(forms)),
        _ => None,
    };
    let Some(form) = form else {
        return;
    };
    let (begin, end) = (form.bytes.start, form.bytes.end);
    let frame = &mut frames[form.frame];
    match way {
        Way::Token => frame[begin] = any_byte(rng),
        Way::Relation => frame[begin + 1] = any_byte(rng),
        Way::Inside => frame[begin + 2 + rng.below(end - begin - 2)] = any_byte(rng),
        Way::Cut => frame.truncate(begin + 1 + rng.below(end - begin - 1)),
        _ => frame.truncate(begin + 1),
    }
}

/// Every text of an accepted file with one byte of an exists changed, and with its frame cut
/// behind that byte.
pub fn every_exists_change(text: &[u8]) -> Vec<Vec<u8>> {
    let Ok(file) = check::read(text) else {
        return Vec::new();
    };
    let frames = layout::frames(&file.syntax);
    let forms = layout::exists_forms(&file.syntax);
    let places = |form: Form| form.bytes.map(move |byte| (form.frame, byte));
    let mut places: Vec<(usize, usize)> = forms.into_iter().flat_map(places).collect();
    places.sort_unstable();
    places.dedup();
    let mut texts = Vec::new();
    for (frame, byte) in places {
        for change in 1..=255 {
            let mut changed = frames.clone();
            changed[frame][byte] ^= change;
            texts.push(text::lines(&changed));
        }
        let mut cut = frames.clone();
        cut[frame].truncate(byte + 1);
        texts.push(text::lines(&cut));
    }
    texts
}

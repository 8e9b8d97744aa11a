//! Random files that are accepted, and damaged texts. The same seed gives the same result.

mod damage;
mod deepest;
mod draft;
mod exists;
mod express;
mod marks;
mod spoil;
mod walk;

pub use damage::{damage, damage_of_kind, every_byte_change, every_limit, Kind, KINDS};
pub use deepest::{deepest, deepest_refused};
pub use exists::{every_exists_change, Way, WAYS};
pub use marks::{exists_marks, EXISTS_MARKS};

use crate::check;
use crate::look::WORK;
use crate::search::Search;
use crate::syntax::{File, Syntax};
use crate::text;
use draft::Draft;

/// The splitmix64 generator.
#[derive(Clone, Debug)]
pub struct Rng {
    state: u64,
}

impl Rng {
    /// A generator that starts from a seed.
    pub fn new(seed: u64) -> Rng {
        Rng { state: seed }
    }

    /// The next 64 bits.
    pub fn bits(&mut self) -> u64 {
        self.state = self.state.wrapping_add(0x9e37_79b9_7f4a_7c15);
        let mut z = self.state;
        z = (z ^ (z >> 30)).wrapping_mul(0xbf58_476d_1ce4_e5b9);
        z = (z ^ (z >> 27)).wrapping_mul(0x94d0_49bb_1331_11eb);
        z ^ (z >> 31)
    }

    /// A number below `below`, which is not 0.
    pub fn below(&mut self, below: usize) -> usize {
        (self.bits() % below as u64) as usize
    }

    /// A number from `low` to `high`, both possible.
    pub fn within(&mut self, low: i64, high: i64) -> i64 {
        low + (self.bits() % (high - low + 1) as u64) as i64
    }

    /// True in so many of a hundred draws.
    pub fn percent(&mut self, percent: usize) -> bool {
        self.below(100) < percent
    }

    /// One of the things.
    pub fn pick<'a, Thing>(&mut self, things: &'a [Thing]) -> &'a Thing {
        &things[self.below(things.len())]
    }

    /// A thing drawn by weight.
    pub fn weighted<Thing: Copy>(&mut self, things: &[(usize, Thing)]) -> Thing {
        let whole = things.iter().map(|thing| thing.0).sum();
        let mut drawn = self.below(whole);
        for &(weight, thing) in things {
            if drawn < weight {
                return thing;
            }
            drawn -= weight;
        }
        things[0].1
    }
}

/// What random files look like.
#[derive(Clone, Copy, Debug)]
pub struct Size {
    /// N is at most this.
    pub candidates: u64,
    /// A view is built over relations whose row bounds multiply to at most this, where possible.
    pub row_bound: u64,
}

impl Size {
    /// Quick to search by any evaluator.
    pub const SMALL: Size = Size {
        candidates: 2048,
        row_bound: 64,
    };
    /// Long searches, for timing.
    pub const LARGE: Size = Size {
        candidates: 1 << 20,
        row_bound: 64,
    };
}

/// A random accepted file with few candidates.
pub fn file(seed: u64) -> File {
    file_of_size(seed, Size::SMALL)
}

/// A random accepted file with few candidates, of which some are cases and the first is none.
///
/// Of plain random files about one in five is such.
pub fn mixed_file(seed: u64) -> File {
    let mut rng = Rng::new(seed);
    let mut work = vec![0; WORK];
    loop {
        let file = file(rng.bits());
        let first = Search::new(&file).first_case(0, file.candidates, &mut work);
        if first.is_some_and(|k| k > 0) {
            return file;
        }
    }
}

/// A random accepted file.
///
/// Drafts keep nearly all rules by the way they are made; the reader has the last word, and a
/// refused draft is thrown away.
pub fn file_of_size(seed: u64, size: Size) -> File {
    let mut rng = Rng::new(seed);
    loop {
        if let Some(file) = accepted(&draft_syntax(&mut rng, size)) {
            return file;
        }
    }
}

/// A random syntax that keeps nearly all rules.
pub fn draft_syntax(rng: &mut Rng, size: Size) -> Syntax {
    Draft::new(rng, size).finish()
}

fn accepted(syntax: &Syntax) -> Option<File> {
    let file = check::read(&text::write_syntax(syntax)).ok()?;
    (file.syntax == *syntax).then_some(file)
}

//! "A look", with its buffers and all refusals in their order.

use crate::candidates;
use crate::cases;
use crate::check;
use crate::search::Search;
use crate::syntax::{File, Refusal};

/// "a work area of i32 numbers (at least 9,216)".
pub const WORK: usize = 9216;

/// What a look answers.
#[derive(Clone, Copy, Debug, PartialEq, Eq)]
pub enum Answer {
    /// "case k".
    Case(u64),
    /// "no case".
    NoCase,
    /// "spent", with next.
    Spent(u64),
    /// A refusal; no buffer has changed.
    Refused {
        /// The number, 1 to 13.
        number: u8,
        /// The line from 1, or 0.
        line: u16,
    },
}

impl From<Refusal> for Answer {
    fn from(refusal: Refusal) -> Answer {
        Answer::Refused {
            number: refusal.number,
            line: refusal.line,
        }
    }
}

/// A look, by the fast search.
pub fn look(text: &[u8], start: u64, count: u64, work: &mut [i32], instance: &mut [i16]) -> Answer {
    look_by(fast_first_case, text, start, count, work, instance)
}

/// A look, by the definition of a case tried on one candidate after another.
pub fn plain_look(
    text: &[u8],
    start: u64,
    count: u64,
    work: &mut [i32],
    instance: &mut [i16],
) -> Answer {
    let first_case = |file: &File, start, end, _: &mut [i32]| plain_first_case(file, start, end);
    look_by(first_case, text, start, count, work, instance)
}

/// The smallest case k with start ≤ k < end, tried in turn.
pub fn plain_first_case(file: &File, start: u64, end: u64) -> Option<u64> {
    (start..end).find(|&k| is_case(file, k))
}

/// Whether candidate k is a case.
pub fn is_case(file: &File, k: u64) -> bool {
    cases::is_case(file, &candidates::candidate_database(&file.syntax, k))
}

/// The same by [`Search`], which puts its rows into the work area.
fn fast_first_case(file: &File, start: u64, end: u64, work: &mut [i32]) -> Option<u64> {
    Search::new(file).first_case(start, end, work)
}

/// "Order: 11, 1, 2 ..., 10, 12, 13", then the search.
fn look_by(
    first_case: impl FnOnce(&File, u64, u64, &mut [i32]) -> Option<u64>,
    text: &[u8],
    start: u64,
    count: u64,
    work: &mut [i32],
    instance: &mut [i16],
) -> Answer {
    let refused = |number| Answer::Refused { number, line: 0 };
    if work.len() < WORK {
        return refused(11);
    }
    let file = match check::read(text) {
        Ok(file) => file,
        Err(refusal) => return refusal.into(),
    };
    let cells = file.syntax.cells();
    if instance.len() < cells {
        return refused(12);
    }
    if start > file.candidates {
        return refused(13);
    }
    // "Let end = min(start + count, N)" in whole numbers: a sum that passes 64 bits passes N.
    let end = start.saturating_add(count).min(file.candidates);
    let found = first_case(&file, start, end, work);
    // "After an accepted look the work area is all zero": all of it, whatever its length.
    work.fill(0);
    match found {
        Some(k) => {
            instance[..cells].copy_from_slice(&candidates::cells(&file.syntax, k));
            Answer::Case(k)
        }
        // "Otherwise "no case" if end = N, else "spent", with next = end."
        None if end == file.candidates => Answer::NoCase,
        None => Answer::Spent(end),
    }
}

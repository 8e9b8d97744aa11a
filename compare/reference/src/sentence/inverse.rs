//! The refusal of a sentence, by its marks alone: nothing of the tables is used here.

use super::Language;
use crate::syntax::Refusal;
use std::str::FromStr;

/// What stands around the figures of a line and of a number.
struct Marks {
    line: &'static str,
    colon: &'static str,
    /// Before the number at the end of a sentence.
    refusal: &'static str,
    /// Before the number of a refusal that has no sentence of its own.
    by_number: &'static str,
}

const ENGLISH: Marks = Marks {
    line: "Line ",
    colon: ": ",
    refusal: " (refusal ",
    by_number: " by number ",
};

const FRENCH: Marks = Marks {
    line: "Ligne ",
    colon: "\u{a0}: ",
    refusal: " (refus ",
    by_number: " par le numéro ",
};

/// Number and line of a sentence, if it is one of the language.
pub fn back(language: Language, sentence: &str) -> Option<Refusal> {
    let marks = match language {
        Language::English => ENGLISH,
        Language::French => FRENCH,
    };
    let (line, rest) = line(&marks, sentence)?;
    let number = number(&marks, rest)?;
    Some(Refusal { number, line })
}

/// The line at the front and what stands behind it. A sentence without one is of line 0, which is
/// never named.
fn line<'a>(marks: &Marks, sentence: &'a str) -> Option<(u16, &'a str)> {
    let Some(behind) = sentence.strip_prefix(marks.line) else {
        return Some((0, sentence));
    };
    let (digits, rest) = behind.split_once(marks.colon)?;
    let line = figures(digits)?;
    (line > 0).then_some((line, rest))
}

/// The number at the end, or before the comma.
fn number(marks: &Marks, sentence: &str) -> Option<u8> {
    if let Some((_, digits)) = sentence
        .strip_suffix(").")
        .and_then(|open| open.rsplit_once(marks.refusal))
    {
        return figures(digits);
    }
    let (_, behind) = sentence.strip_suffix('.')?.split_once(marks.by_number)?;
    let (digits, _) = behind.split_once(',')?;
    figures(digits)
}

/// A number that is written as it would be printed: no sign, and no 0 before it.
fn figures<Number: FromStr + ToString>(digits: &str) -> Option<Number> {
    let number: Number = digits.parse().ok()?;
    (number.to_string() == digits).then_some(number)
}

//! A refusal as a sentence in English and in French, the sheet of both, and the way back.

mod inverse;
mod words;

pub use inverse::back;

use crate::check;
use crate::syntax::Refusal;
use words::{words, Words};

/// A language of the sentences.
#[derive(Clone, Copy, Debug, PartialEq, Eq)]
pub enum Language {
    /// Language 0.
    English,
    /// Language 1.
    French,
}

impl Language {
    /// Both, in the order of a sheet.
    pub const ALL: [Language; 2] = [Language::English, Language::French];
}

/// The sentence of a refusal. With line 0, "where none is said", no line is named.
pub fn sentence(language: Language, number: u8, line: u16) -> String {
    let words = words(language);
    if line == 0 {
        return said(words, &words.alone, number);
    }
    let said = said(words, &words.there, number);
    format!("{}{line}{}{said}", words.line, words.colon)
}

/// What is said of a number by one of the lists. A number outside it stands behind its first entry.
fn said(words: &Words, list: &[&str], number: u8) -> String {
    match list.get(usize::from(number)) {
        Some(said) if number > 0 => (*said).to_owned(),
        _ => format!("{}{number}{}", list[0], words.close),
    }
}

/// What the second program prints for a text: "both sentences, English first, each closed by LF, or
/// nothing where there is no 8f".
pub fn sheet(text: &[u8]) -> Vec<u8> {
    match check::read(text) {
        Ok(_) => Vec::new(),
        Err(refusal) => both(refusal).into_bytes(),
    }
}

/// Both sentences of a refusal, English first, each closed by LF.
pub fn both(refusal: Refusal) -> String {
    let Refusal { number, line } = refusal;
    let closed = |language| sentence(language, number, line) + "\n";
    Language::ALL.map(closed).concat()
}

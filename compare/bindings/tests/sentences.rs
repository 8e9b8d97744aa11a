//! Sentences beside those of the reference, and the way back; buffers of every length.

use reference::sentence as expected;
use sakthveim::{sentence, Language, Refusal, SENTENCE};
use std::ptr;

const LANGUAGES: [Language; 2] = [Language::English, Language::French];

extern "C" {
    fn sakthveim_sentence(
        number: u8,
        line: u16,
        language: u8,
        out: *mut u8,
        out_length: usize,
    ) -> usize;
}

/// The language as the reference calls it.
fn theirs(language: Language) -> expected::Language {
    match language {
        Language::English => expected::Language::English,
        Language::French => expected::Language::French,
    }
}

/// The sentence is the reference's, and gives number and line back.
fn compare(language: Language, number: u8, line: u16) {
    let mut out = [0; SENTENCE];
    let length = sentence(Refusal { number, line }, language, &mut out);
    let found = std::str::from_utf8(&out[..length]).expect("text");
    let language = theirs(language);
    assert_eq!(found, expected::sentence(language, number, line));
    let back = expected::back(language, found);
    assert_eq!(back, Some(reference::Refusal { number, line }), "{found}");
}

/// "every line from 0 to 65,535", for all numbers with a sentence of their own.
#[test]
fn every_line() {
    for language in LANGUAGES {
        for number in 1..=18 {
            for line in 0..=u16::MAX {
                compare(language, number, line);
            }
        }
    }
}

/// Every number, later ones too: at lines of each count of figures and around their limits.
#[test]
fn every_number() {
    let limits = [0, 10, 100, 1_000, 10_000, 65_530];
    let lines = limits.into_iter().flat_map(|limit: u16| {
        let first = limit.saturating_sub(6);
        first..=limit.saturating_add(6)
    });
    let lines: Vec<u16> = lines.chain((0..=u16::MAX).step_by(997)).collect();
    for language in LANGUAGES {
        for number in 0..=255 {
            for &line in &lines {
                compare(language, number, line);
            }
        }
    }
}

#[test]
fn sentences_as_strings() {
    let refusal = Refusal { number: 8, line: 5 };
    assert_eq!(
        refusal.sentence(Language::English),
        "Line 5: this view could have more than 64 rows (refusal 8)."
    );
    assert_eq!(
        refusal.sentence(Language::French),
        "Ligne 5\u{a0}: cette vue pourrait avoir plus de 64 rangées (refus 8)."
    );
}

/// Bytes that no UTF-8 text has, in turn.
fn pattern(length: usize) -> Vec<u8> {
    (0..length).map(|at| 0xf8 | (at % 7) as u8).collect()
}

/// The answer and the buffer afterwards, for a buffer of a length filled with the pattern.
fn with_room(language: Language, refusal: Refusal, length: usize) -> (usize, Vec<u8>) {
    let mut out = pattern(length);
    (sentence(refusal, language, &mut out), out)
}

/// What a buffer of a length is due for a sentence: all of it and the pattern behind it, or nothing.
fn due(said: &[u8], length: usize) -> (usize, Vec<u8>) {
    let mut out = pattern(length);
    if said.len() > length {
        return (0, out);
    }
    out[..said.len()].copy_from_slice(said);
    (said.len(), out)
}

/// From no room at all to more than enough.
#[test]
fn buffers_of_every_length() {
    for language in LANGUAGES {
        for number in 0..=255 {
            for line in [0, 9, 65_535] {
                let refusal = Refusal { number, line };
                let said = expected::sentence(theirs(language), number, line);
                for length in 0..=said.len() + 40 {
                    let found = with_room(language, refusal, length);
                    assert_eq!(found, due(said.as_bytes(), length), "{length}, {said}");
                }
            }
        }
    }
}

/// A large buffer changes in front alone.
#[test]
fn a_large_buffer() {
    for language in LANGUAGES {
        let refusal = Refusal { number: 9, line: 2 };
        let said = expected::sentence(theirs(language), 9, 2);
        let found = with_room(language, refusal, 1 << 20);
        assert!(found == due(said.as_bytes(), 1 << 20));
    }
}

/// The same as C sees it, with any number for the language.
fn raw(number: u8, line: u16, language: u8, out: &mut [u8]) -> usize {
    unsafe { sakthveim_sentence(number, line, language, out.as_mut_ptr(), out.len()) }
}

#[test]
fn no_such_language() {
    for language in 2..=255 {
        for number in 0..=255 {
            for line in [0, 1, 65_535] {
                let mut out = pattern(SENTENCE);
                assert_eq!(raw(number, line, language, &mut out), 0);
                assert_eq!(out, pattern(SENTENCE));
            }
        }
    }
}

/// 0 is English, 1 is French.
#[test]
fn numbers_of_the_languages() {
    for (code, language) in (0..).zip(LANGUAGES) {
        let mut out = [0; SENTENCE];
        let length = raw(3, 0, code, &mut out);
        let said = Refusal { number: 3, line: 0 }.sentence(language);
        assert_eq!(&out[..length], said.as_bytes());
    }
}

/// "the pointer of an empty slice may be null".
#[test]
fn an_empty_buffer() {
    for language in 0..=255 {
        for number in 0..=255 {
            assert_eq!(raw(number, 1, language, &mut []), 0);
            let null = unsafe { sakthveim_sentence(number, 1, language, ptr::null_mut(), 0) };
            assert_eq!(null, 0);
        }
    }
}

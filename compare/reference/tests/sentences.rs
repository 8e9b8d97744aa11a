//! Refusals as sentences: what they say, how they are set, and that they give number and line back.

mod common;

use common::EXAMPLE;
use reference::sentence::{back, both, sentence, sheet, Language};
use reference::Refusal;

/// The numbers that have a sentence of their own.
const OWN: std::ops::RangeInclusive<u8> = 1..=18;

/// Room for any sentence, as in include/sakthveim.h.
const ROOM: usize = 512;

/// Lines of every count of figures, and those around their limits.
const LINES: [u16; 19] = [
    0, 1, 2, 7, 9, 10, 11, 42, 99, 100, 101, 999, 1_000, 2_731, 9_999, 10_000, 12_345, 65_534,
    65_535,
];

fn other(language: Language) -> Language {
    match language {
        Language::English => Language::French,
        Language::French => Language::English,
    }
}

/// Every number at the lines above, in both languages.
fn each(mut visit: impl FnMut(Language, Refusal, String)) {
    for language in Language::ALL {
        for number in 0..=255 {
            for line in LINES {
                let said = sentence(language, number, line);
                visit(language, Refusal { number, line }, said);
            }
        }
    }
}

#[test]
fn some_sentences() {
    let english = |number, line| sentence(Language::English, number, line);
    let french = |number, line| sentence(Language::French, number, line);
    assert_eq!(
        english(8, 5),
        "Line 5: this view could have more than 64 rows (refusal 8)."
    );
    assert_eq!(
        french(8, 5),
        "Ligne 5\u{a0}: cette vue pourrait avoir plus de 64 rangées (refus 8)."
    );
    assert_eq!(
        english(3, 0),
        "The rule file does not end with a goal (refusal 3)."
    );
    assert_eq!(
        french(10, 0),
        "Les tables permettent plus de 16\u{202f}777\u{202f}216 bases de données (refus 10)."
    );
    assert_eq!(
        english(19, 0),
        "The call was refused by number 19, which has no sentence of its own."
    );
    assert_eq!(
        english(0, 65_535),
        "Line 65535: refused by number 0, which has no sentence of its own."
    );
    assert_eq!(
        french(255, 0),
        "L’appel a été refusé par le numéro 255, qui n’a pas sa propre phrase."
    );
    assert_eq!(
        french(255, 10),
        "Ligne 10\u{a0}: refusé par le numéro 255, qui n’a pas sa propre phrase."
    );
}

/// "the sentence alone must give back the pair of number and line, for every refusal number, later
/// ones too".
#[test]
fn every_number_comes_back() {
    each(|language, refusal, said| assert_eq!(back(language, &said), Some(refusal), "{said}"));
}

/// "and every line from 0 to 65,535".
#[test]
fn every_line_comes_back() {
    for language in Language::ALL {
        for number in OWN {
            for line in 0..=u16::MAX {
                let said = sentence(language, number, line);
                let refusal = Some(Refusal { number, line });
                assert_eq!(back(language, &said), refusal, "{said}");
            }
        }
    }
}

#[test]
fn one_language_is_not_read_as_the_other() {
    each(|language, _, said| assert_eq!(back(other(language), &said), None, "{said}"));
}

#[test]
fn what_is_no_sentence() {
    let no_sentences = [
        "",
        ".",
        "Line ",
        "Line 4",
        "Line 4: ",
        "Line 4: it is wrong.",
        "(refusal 4).",
        "Line 0: it is wrong (refusal 4).",
        "Line 04: it is wrong (refusal 4).",
        "Line +4: it is wrong (refusal 4).",
        "Line : it is wrong (refusal 4).",
        "Line 65536: it is wrong (refusal 4).",
        "Line 4 it is wrong (refusal 4).",
        "Line 4: it is wrong (refusal 04).",
        "Line 4: it is wrong (refusal +4).",
        "Line 4: it is wrong (refusal 256).",
        "Line 4: it is wrong (refusal ).",
        "Line 4: it is wrong (refusal 4)",
        "Line 4: it is wrong (refusal 4).\n",
        "It was refused by number 019, and so on.",
        "It was refused by number 256, and so on.",
        "It was refused by number , and so on.",
        "It was refused by number 19.",
        "It was refused by number 19, and so on",
    ];
    for said in no_sentences {
        assert_eq!(back(Language::English, said), None, "{said}");
    }
    let no_sentences = [
        "Ligne 4 : elle est fausse (refus 4).",
        "Ligne 4\u{202f}: elle est fausse (refus 4).",
        "Ligne 0\u{a0}: elle est fausse (refus 4).",
        "Ligne 4\u{a0}: elle est fausse (refus 04).",
        "L’appel a été refusé par le numéro 019, et ainsi de suite.",
    ];
    for said in no_sentences {
        assert_eq!(back(Language::French, said), None, "{said}");
    }
}

#[test]
fn capitals_and_full_stops() {
    each(|_, _, said| {
        assert!(said.starts_with(char::is_uppercase), "{said}");
        assert!(said.ends_with('.') && !said.contains('\n'), "{said}");
        assert_eq!(said.trim(), said);
        assert!(!said.contains("  "), "{said}");
    });
}

/// "line 0 where none is said": then no line is named.
#[test]
fn lines_are_named() {
    each(|language, refusal, said| {
        let (word, colon) = match language {
            Language::English => ("Line", ":"),
            Language::French => ("Ligne", "\u{a0}:"),
        };
        let named = said.starts_with(&format!("{word} "));
        assert_eq!(named, refusal.line > 0, "{said}");
        let begin = format!("{word} {}{colon} ", refusal.line);
        assert_eq!(said.starts_with(&begin), named, "{said}");
    });
}

/// A space that no line breaks at stands before `:` and `;`.
#[test]
fn french_is_set_as_french() {
    each(|language, _, said| {
        if language != Language::French {
            return;
        }
        assert!(!said.contains('\''), "{said}");
        for (at, mark) in said.match_indices([':', ';']) {
            let before = said[..at].chars().next_back();
            let narrow = matches!(before, Some('\u{a0}' | '\u{202f}'));
            assert!(narrow, "{mark} in {said}");
        }
    });
}

/// No two numbers share their words.
#[test]
fn sentences_differ_before_their_numbers() {
    for language in Language::ALL {
        for line in [0, 1] {
            let words = |number| {
                let said = sentence(language, number, line);
                said.rsplit_once('(').expect("a number").0.to_owned()
            };
            let mut all: Vec<String> = OWN.map(words).collect();
            all.sort();
            all.dedup();
            assert_eq!(all.len(), OWN.count());
        }
    }
}

#[test]
fn the_longest_sentence() {
    let mut longest = 0;
    each(|_, _, said| longest = longest.max(said.len()));
    println!("the longest sentence has {longest} bytes");
    assert_eq!(longest, 409);
    assert!(longest <= ROOM);
}

#[test]
fn sheets() {
    assert_eq!(sheet(EXAMPLE.as_bytes()), b"");
    let spoilt = EXAMPLE.replace("070200", "0702");
    let expected = "Line 4: it is too short or too long, or has a token that may not stand where \
        it stands (refusal 4).\n\
        Ligne 4\u{a0}: elle est trop courte ou trop longue, ou contient un code qui ne peut pas se \
        trouver là où il est (refus 4).\n";
    assert_eq!(
        String::from_utf8(sheet(spoilt.as_bytes())),
        Ok(expected.to_owned())
    );
    assert_eq!(both(Refusal { number: 4, line: 4 }), expected);
    let empty = "The rule file is empty or longer than 8,192 bytes (refusal 1).\n\
        Le fichier de règles est vide ou dépasse 8\u{202f}192 octets (refus 1).\n";
    assert_eq!(sheet(b""), empty.as_bytes());
}

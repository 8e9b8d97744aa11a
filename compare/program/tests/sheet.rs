//! The second program beside the reference and the first: both sentences of a refused text, and
//! nothing for an accepted one.

mod program;
mod texts;

use program::{GENERATE, SHEET, STACK};
use reference::sentence::{back, sheet, Language};
use reference::{gen, text as lines, write, Refusal};
use std::time::Duration;
use texts::common::{exists, text, EXAMPLE};
use texts::shown;

/// Number and line in an answer of the first program, if it is "8f, number, line in two bytes".
fn in_frames(answer: &[u8]) -> Option<Refusal> {
    let frames = lines::frames(answer).expect("frames");
    let [0x8f, number, high, low] = frames[0][..] else {
        return None;
    };
    let line = u16::from_be_bytes([high, low]);
    Some(Refusal { number, line })
}

/// Number and line on a sheet, by either of its sentences alone.
fn on_sheet(sheet: &[u8]) -> Option<Refusal> {
    if sheet.is_empty() {
        return None;
    }
    let text = std::str::from_utf8(sheet).expect("text");
    let closed = text.strip_suffix('\n').expect("a last LF");
    let (english, french) = closed.split_once('\n').expect("two lines");
    let refusal = back(Language::English, english).expect("a sentence");
    let too = back(Language::French, french).expect("a sentence");
    assert_eq!(refusal, too, "{text}");
    Some(refusal)
}

/// Texts compared, how many met each number, 0 for accepted ones, and of how many the first
/// program was not asked.
#[derive(Default)]
struct Tally {
    texts: u64,
    met: [u64; 11],
    not_asked: u64,
}

impl Tally {
    fn compare(&mut self, text: &[u8]) {
        let found = SHEET.answer(text);
        assert_eq!(shown(&found), shown(&sheet(text)), "{}", shown(text));
        let refusal = on_sheet(&found);
        if texts::is_long(text) {
            self.not_asked += 1;
        } else {
            let frames = GENERATE.answer(text);
            assert_eq!(refusal, in_frames(&frames), "{}", shown(text));
        }
        self.texts += 1;
        self.met[refusal.map_or(0, |it| usize::from(it.number))] += 1;
    }

    /// Shows what was met: every number, some of them often.
    fn finish(&self) {
        let (texts, not_asked) = (self.texts, self.not_asked);
        println!("{texts} texts, {not_asked} of them not searched");
        for (number, met) in self.met.iter().enumerate() {
            println!("{met:7} by {number}");
            assert!(*met >= 20, "by {number}");
        }
    }
}

#[test]
fn random_and_damaged_texts() {
    let mut tally = Tally::default();
    for text in texts::random_and_damaged(300) {
        tally.compare(&text);
    }
    assert!(tally.texts >= 3_000);
    tally.finish();
}

fn said(text: &[u8]) -> String {
    String::from_utf8(SHEET.answer(text)).expect("text")
}

/// Number and line on the sheet of a text.
fn refusal(text: &[u8]) -> (u8, u16) {
    let refusal = on_sheet(&SHEET.answer(text)).expect("a refusal");
    (refusal.number, refusal.line)
}

#[test]
fn the_worked_example() {
    assert_eq!(said(EXAMPLE.as_bytes()), "");
    let negative = EXAMPLE.replace("070200", "070201");
    assert_eq!(said(negative.as_bytes()), "");
    let spoilt = EXAMPLE.replace("070200", "0702");
    let expected = "Line 4: it is too short or too long, or has a token that may not stand where \
        it stands (refusal 4).\n\
        Ligne 4\u{a0}: elle est trop courte ou trop longue, ou contient un code qui ne peut pas se \
        trouver là où il est (refus 4).\n";
    assert_eq!(said(spoilt.as_bytes()), expected);
    let empty = "The rule file is empty or longer than 8,192 bytes (refusal 1).\n\
        Le fichier de règles est vide ou dépasse 8\u{202f}192 octets (refus 1).\n";
    assert_eq!(said(b""), empty);
}

/// Views with exists, made by hand with their refusals.
#[test]
fn views_with_exists() {
    for (view, number) in exists::views() {
        let found = on_sheet(&SHEET.answer(exists::with_view(view).as_bytes()));
        let expected = (number > 0).then_some(Refusal { number, line: 3 });
        assert_eq!(found, expected, "{view}");
    }
}

/// "The file has 1 to 8,192 bytes", and the largest line that a text has.
#[test]
fn lengths_at_the_limit() {
    let mut text = texts::longest();
    assert_eq!(text.len(), 8_192);
    assert_eq!(refusal(&text), (3, 5));
    text.push(b'\n');
    assert_eq!(refusal(&text), (1, 0));
    assert_eq!(refusal(b"\n"), (2, 1));
    let lines = "01\n".repeat(8_190 / 3) + "0\n";
    assert_eq!(lines.len(), 8_192);
    assert_eq!(refusal(lines.as_bytes()), (2, 2_731));
}

/// An input that is too long is not cut where an accepted file ends.
#[test]
fn accepted_file_with_more_behind_it() {
    for text in texts::too_long() {
        assert_eq!(refusal(&text), (1, 0), "{}", text.len());
    }
}

/// An input that arrives bit by bit is the same input.
#[test]
fn small_pieces() {
    let pause = Duration::from_millis(3);
    let files = (0..4).map(|seed| write(&gen::file(seed)));
    let damaged = (0..12).map(|seed| gen::damage(&write(&gen::file(seed)), seed));
    for text in files.chain(damaged) {
        let found = SHEET.answer_in_pieces(&text, 7, pause);
        assert_eq!(shown(&found), shown(&sheet(&text)));
    }
    let mut text = texts::longest();
    let long = |text: &[u8]| shown(&SHEET.answer_in_pieces(text, 700, pause));
    assert_eq!(long(&text), said(&text));
    text.push(b'\n');
    assert_eq!(long(&text), said(&text));
}

/// A read that fails is not taken for the end of an empty input.
#[test]
fn a_read_that_fails() {
    let (printed, said) = SHEET.on_a_directory();
    assert_eq!(printed, b"");
    assert_eq!(said, "sheet: the input cannot be read\n");
}

/// A write that fails is said.
#[test]
fn a_write_that_fails() {
    let said = SHEET.onto_a_full_device();
    assert_eq!(said, "sheet: the output cannot be written\n");
}

/// An accepted file of 2^24 candidates without a case. The first program searches it for more than
/// a minute.
fn long_search() -> String {
    let table = "01 01 02 00 0000 0fff 0000 0fff".to_owned();
    let rounds = "05 0001".repeat(37);
    let view = |below: usize| format!("03 01 {below:02x} 01 10 {rounds} 010000");
    let mut frames = vec![table];
    frames.extend((0..14).map(view));
    frames.push("03 01 0e 01 12 000fff 010000 010000".to_owned());
    frames.push("07 0f 00".to_owned());
    let frames: Vec<&str> = frames.iter().map(String::as_str).collect();
    text(&frames)
}

/// It checks and does not search: a second of the processor's time is far more than it needs.
#[test]
fn no_search() {
    let text = long_search();
    let file = reference::read(text.as_bytes()).expect("accepted");
    assert_eq!(file.candidates, 1 << 24);
    assert_eq!(SHEET.answer_within("-t 1", text.as_bytes()), b"");
}

/// The files whose conditions and expressions nest the deepest.
#[test]
fn deepest_files() {
    for (name, text) in gen::deepest().into_iter().chain(gen::deepest_refused()) {
        let found = SHEET.answer_within(STACK, &text);
        assert_eq!(shown(&found), shown(&sheet(&text)), "{name}");
    }
}

//! Every call has stack enough in a thread of [`STACK`] bytes: the files whose expressions and
//! conditions nest the deepest, checked and searched there, and all kinds of sentences. A call that
//! needs more ends the test.

use reference::{gen, sentence};
use sakthveim::{Answer, Language, Refusal, STACK, WORK};
use std::thread;

/// What a call answers in a thread of its own.
fn in_a_small_thread<Found: Send>(call: impl FnOnce() -> Found + Send) -> Found {
    thread::scope(|scope| {
        let thread = thread::Builder::new().stack_size(STACK);
        let running = thread.spawn_scoped(scope, call).expect("a thread");
        running.join().expect("an answer")
    })
}

/// The check and the look of a text.
fn check_and_look(text: &[u8]) -> (Result<(), Refusal>, Answer) {
    let (mut work, mut instance) = (vec![7; WORK], vec![-1; 1]);
    in_a_small_thread(|| {
        let check = sakthveim::check(text);
        let look = sakthveim::look(text, 0, u64::MAX, &mut work, &mut instance);
        (check, look)
    })
}

#[test]
fn deepest_files() {
    let files = gen::deepest();
    let negations = "14".repeat(112) + "10";
    // and all six items open
    let exists = "1700".repeat(5) + &"14".repeat(102) + "10";
    for deepest in [negations, exists] {
        let has_all = |text: &[u8]| String::from_utf8_lossy(text).contains(&deepest);
        assert!(files.iter().any(|(_, text)| has_all(text)), "{deepest}");
    }
    for (name, text) in files {
        let (check, look) = check_and_look(&text);
        assert_eq!(check, Ok(()), "{name}");
        let (mut work, mut instance) = ([0; WORK], [0; 1]);
        let expected = match reference::look(&text, 0, u64::MAX, &mut work, &mut instance) {
            reference::Answer::Case(k) => Answer::Case(k),
            _ => Answer::NoCase,
        };
        assert_eq!(look, expected, "{name}");
    }
}

#[test]
fn deepest_refusals() {
    for (name, text) in gen::deepest_refused() {
        let refusal = Refusal { number: 4, line: 2 };
        let found = check_and_look(&text);
        assert_eq!(found, (Err(refusal), Answer::Refused(refusal)), "{name}");
    }
}

/// The sentence of every number, with a line and without.
#[test]
fn sentences() {
    for number in 0..=255 {
        for line in [0, 65_535] {
            let refusal = Refusal { number, line };
            let call = || [Language::English, Language::French].map(|it| refusal.sentence(it));
            let expected = sentence::Language::ALL.map(|it| sentence::sentence(it, number, line));
            assert_eq!(in_a_small_thread(call), expected);
        }
    }
}

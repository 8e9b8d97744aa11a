//! Looks beside those of an independent implementation: the same answers, and the same numbers in
//! every buffer afterwards.

use reference::gen::{self, Rng, Size, KINDS};
use reference::{read, write, File};
use sakthveim::{look, Answer, Refusal, WORK};
use std::collections::BTreeMap;
use std::ops::RangeInclusive;

#[path = "../../reference/tests/common/mod.rs"]
mod common;

use common::EXAMPLE;

/// No look here tries more candidates than this.
const MOST: u64 = 4096;

fn plain_look(text: &[u8], start: u64, count: u64, work: &mut [i32], cells: &mut [i16]) -> Answer {
    answer(reference::plain_look(text, start, count, work, cells))
}

fn fast_look(text: &[u8], start: u64, count: u64, work: &mut [i32], cells: &mut [i16]) -> Answer {
    answer(reference::look(text, start, count, work, cells))
}

fn answer(answer: reference::Answer) -> Answer {
    match answer {
        reference::Answer::Case(k) => Answer::Case(k),
        reference::Answer::NoCase => Answer::NoCase,
        reference::Answer::Spent(next) => Answer::Spent(next),
        reference::Answer::Refused { number, line } => Answer::Refused(Refusal { number, line }),
    }
}

/// A look: what is given and lent to it.
struct Look<'a> {
    text: &'a [u8],
    start: u64,
    count: u64,
    work: Vec<i32>,
    instance: Vec<i16>,
}

/// A function that makes a look.
type Looker = fn(&[u8], u64, u64, &mut [i32], &mut [i16]) -> Answer;

/// An answer, with the work area and the instance buffer as they are then.
type After = (Answer, Vec<i32>, Vec<i16>);

impl Look<'_> {
    fn made(&self, by: Looker) -> After {
        let (mut work, mut instance) = (self.work.clone(), self.instance.clone());
        let answer = by(self.text, self.start, self.count, &mut work, &mut instance);
        (answer, work, instance)
    }

    /// A work area is too long to be shown.
    fn assert_equal(&self, found: &After, expected: &After) {
        let shown = || {
            let (start, count, work) = (self.start, self.count, self.work.len());
            let text = String::from_utf8_lossy(self.text);
            format!("start {start}, count {count}, {work} numbers of work\n{text}")
        };
        assert_eq!(found.0, expected.0, "{}", shown());
        assert_eq!(found.2, expected.2, "{}", shown());
        assert!(found.1 == expected.1, "work area, {}", shown());
    }
}

/// Draws looks, compares them, and counts how many met each answer.
struct Comparison {
    rng: Rng,
    /// Random numbers, of which every work area is a part.
    numbers: Vec<i32>,
    looks: u64,
    plain: u64,
    /// Looks at a file with exists.
    exists: u64,
    met: BTreeMap<String, u64>,
}

impl Comparison {
    fn new(seed: u64) -> Comparison {
        let mut rng = Rng::new(seed);
        Comparison {
            numbers: (0..4 * WORK).map(|_| rng.bits() as i32).collect(),
            rng,
            looks: 0,
            plain: 0,
            exists: 0,
            met: BTreeMap::new(),
        }
    }

    /// A work area of random numbers, too short in one of ten.
    fn work(&mut self) -> Vec<i32> {
        let length = match self.rng.below(20) {
            0 => WORK - 1,
            1 => *self.rng.pick(&[0, 1, WORK / 2]),
            2..=5 => WORK + 1 + self.rng.below(WORK),
            _ => WORK,
        };
        let at = self.rng.below(self.numbers.len() - length);
        self.numbers[at..at + length].to_vec()
    }

    fn instance(&mut self, length: usize) -> Vec<i16> {
        (0..length).map(|_| self.rng.bits() as i16).collect()
    }

    /// A look at a text of N candidates, from around 0, around N or between, over at most
    /// [`MOST`] of them.
    fn draw<'a>(&mut self, text: &'a [u8], n: u64, length: usize) -> Look<'a> {
        let rng = &mut self.rng;
        let within = rng.bits() % n;
        let near = n - rng.bits() % n.min(MOST);
        let start = *rng.pick(&[0, 1, n - 1, n, n + 1, u64::MAX, within, within, near, near]);
        let rest = n.saturating_sub(start);
        let some = rng.bits() % n;
        let counts = [0, 1, n - 1, n, n + 1, u64::MAX, rest, rest / 2, some, some];
        let count = *rng.pick(&counts);
        let long = rest.min(count) > MOST;
        Look {
            text,
            start,
            count: if long { some % MOST } else { count },
            work: self.work(),
            instance: self.instance(length),
        }
    }

    /// Compares a look, also with the slower plain search if asked; gives what came of it.
    fn compare(&mut self, one: &Look, plain: bool) -> After {
        let found = one.made(look);
        one.assert_equal(&found, &one.made(fast_look));
        if plain {
            one.assert_equal(&found, &one.made(plain_look));
        }
        self.looks += 1;
        self.plain += u64::from(plain);
        let name = match found.0 {
            Answer::Case(_) => "case".to_owned(),
            Answer::NoCase => "no case".to_owned(),
            Answer::Spent(_) => "spent".to_owned(),
            Answer::Refused(refusal) => format!("refusal {}", refusal.number),
        };
        *self.met.entry(name).or_insert(0) += 1;
        found
    }

    /// Looks at a file with instances of every length up to two more than its cells, and some more
    /// with instances that are long enough.
    fn file(&mut self, file: &File, plain: bool) {
        let text = write(file);
        let cells = file.syntax.cells();
        for length in (0..cells).chain([cells, cells + 1, cells + 2].repeat(3)) {
            let one = self.draw(&text, file.candidates, length);
            self.compare(&one, plain);
            self.exists += u64::from(file.syntax.has_exists());
        }
    }

    /// Looks once at a text that may be refused.
    fn text(&mut self, text: &[u8]) {
        let (n, cells) = read(text).map_or((100, 8), |file| (file.candidates, file.syntax.cells()));
        let length = self.rng.below(cells + 3);
        let one = self.draw(text, n, length);
        self.compare(&one, false);
    }

    /// Makes a list of looks, some of them refused, each from the start last handed back: it ends as
    /// one look at all candidates does.
    fn list(&mut self, file: &File) {
        let text = &write(file)[..];
        let (n, cells) = (file.candidates, file.syntax.cells());
        let whole = Look {
            text,
            start: 0,
            count: u64::MAX,
            work: vec![0; WORK],
            instance: vec![0; cells],
        };
        let (end, _, found) = self.compare(&whole, false);
        self.exists += u64::from(file.syntax.has_exists());
        let (mut start, mut sum) = (0, 0u128);
        loop {
            let count = match self.rng.below(20) {
                0 => u64::MAX,
                1..=3 => 0,
                _ => self.rng.bits() % (n / 4 + 2),
            };
            let length = match self.rng.below(10) {
                0 => self.rng.below(cells + 1),
                _ => cells + self.rng.below(3),
            };
            let one = Look {
                text,
                start,
                count,
                work: self.work(),
                instance: self.instance(length),
            };
            let (answer, _, instance) = self.compare(&one, false);
            if let Answer::Refused(refusal) = answer {
                assert!([11, 12].contains(&refusal.number));
                continue;
            }
            sum += u128::from(count);
            if let Answer::Spent(next) = answer {
                assert_eq!(u128::from(next), sum);
                start = next;
                continue;
            }
            assert_eq!(answer, end);
            let mut expected = one.instance;
            if let Answer::Case(k) = answer {
                assert!(u128::from(k) < sum);
                expected[..cells].copy_from_slice(&found);
            } else {
                assert!(u128::from(n) <= sum);
            }
            assert_eq!(instance, expected);
            return;
        }
    }

    /// Shows what was met: each answer and each of these refusals some hundred times.
    fn finish(&self, refusals: RangeInclusive<u8>) {
        println!("{} looks, {} also plain", self.looks, self.plain);
        println!("{} looks at files with exists", self.exists);
        assert!(self.exists >= 1_000);
        let answers = ["case", "no case", "spent"].map(str::to_owned);
        let refusals = refusals.map(|number| format!("refusal {number}"));
        for name in answers.into_iter().chain(refusals) {
            let met = self.met.get(&name).copied().unwrap_or(0);
            println!("{met:7} {name}");
            assert!(met >= 300, "{name}");
        }
    }
}

#[test]
fn random_looks() {
    let mut comparison = Comparison::new(1);
    for seed in 0..3_000 {
        comparison.file(&gen::file(seed), seed % 4 == 0);
        comparison.file(&gen::mixed_file(seed), seed % 4 == 1);
    }
    let large = Size {
        candidates: 1 << 24,
        ..Size::LARGE
    };
    for seed in 0..1_000 {
        comparison.file(&gen::file_of_size(seed, large), false);
    }
    for seed in 0..40_000 {
        comparison.text(&gen::damage(&write(&gen::file(seed / 8)), seed));
    }
    let mixed = |seed| write(&gen::mixed_file(seed));
    let files: Vec<Vec<u8>> = (0..500).map(mixed).collect();
    for (_, kind) in KINDS {
        for (seed, text) in (0..).zip(&files) {
            comparison.text(&gen::damage_of_kind(text, kind, seed));
        }
    }
    comparison.finish(1..=13);
}

#[test]
fn lists_of_looks() {
    let mut comparison = Comparison::new(2);
    for seed in 0..2_000 {
        comparison.list(&gen::file(seed));
        comparison.list(&gen::mixed_file(seed));
    }
    comparison.finish(11..=12);
}

/// Files with exists, made by hand with their first cases.
#[test]
fn looks_with_exists() {
    let mut comparison = Comparison::new(3);
    for (text, told) in common::exists::files() {
        let whole = Look {
            text: text.as_bytes(),
            start: 0,
            count: u64::MAX,
            work: vec![7; WORK],
            instance: vec![-1; 16],
        };
        let (found, ..) = comparison.compare(&whole, true);
        assert_eq!(found, answer(told), "{text}");
    }
}

/// M1 and M2 of document 01, and the ends of its example's 13 candidates.
#[test]
fn looks_of_the_document() {
    let made = |text: &str, start, count| {
        let (mut work, mut instance) = ([7; WORK], [-1; 2]);
        let answer = look(text.as_bytes(), start, count, &mut work, &mut instance);
        assert_eq!(work, [0; WORK]);
        (answer, instance)
    };
    let negative = EXAMPLE.replace("070200", "070201");
    let kept = [-1, -1];
    assert_eq!(made(EXAMPLE, 0, 9), (Answer::Spent(9), kept));
    assert_eq!(made(EXAMPLE, 0, 10), (Answer::Case(9), [9, -1]));
    assert_eq!(made(EXAMPLE, 10, u64::MAX), (Answer::Case(10), [10, -1]));
    assert_eq!(made(EXAMPLE, 12, 0), (Answer::Spent(12), kept));
    assert_eq!(made(EXAMPLE, 13, 0), (Answer::NoCase, kept));
    assert_eq!(made(&negative, 0, 12), (Answer::Spent(12), kept));
    assert_eq!(made(&negative, 0, 13), (Answer::NoCase, kept));
    assert_eq!(made(&negative, 0, u64::MAX), (Answer::NoCase, kept));
}

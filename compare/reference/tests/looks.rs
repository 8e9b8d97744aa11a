//! Looks compared with brute force, and their buffers.

mod common;

use common::{fresh_look, text, EXAMPLE};
use reference::candidates::cells;
use reference::gen::{self, Rng};
use reference::look::{is_case, WORK};
use reference::{look, plain_look, read, write, Answer};

fn refused(number: u8, line: u16) -> Answer {
    Answer::Refused { number, line }
}

/// What "A look" says, by trying every candidate.
fn expected(cases: &[u64], candidates: u64, start: u64, count: u64) -> Answer {
    let end = u128::min(
        u128::from(start) + u128::from(count),
        u128::from(candidates),
    ) as u64;
    match cases.iter().find(|&&k| start <= k && k < end) {
        Some(&k) => Answer::Case(k),
        None if end == candidates => Answer::NoCase,
        None => Answer::Spent(end),
    }
}

#[test]
fn looks_agree_with_brute_force() {
    let mut rng = Rng::new(5);
    for seed in 0..3_000 {
        let file = if seed % 2 == 0 {
            gen::file(seed)
        } else {
            gen::mixed_file(seed)
        };
        let text = write(&file);
        let n = file.candidates;
        let cases: Vec<u64> = (0..n).filter(|&k| is_case(&file, k)).collect();
        for round in 0..8 {
            let start = match round {
                0 => 0,
                1 => n,
                _ => rng.bits() % (n + 1),
            };
            let counts = [0, 1, n - start, u64::MAX, rng.bits() % (n + 1), rng.bits()];
            let count = *rng.pick(&counts);
            check_look(
                &mut rng,
                &text,
                start,
                count,
                expected(&cases, n, start, count),
                &file,
            );
        }
    }
}

/// One look by each search, in buffers of random contents and lengths.
fn check_look(
    rng: &mut Rng,
    text: &[u8],
    start: u64,
    count: u64,
    expected: Answer,
    file: &reference::File,
) {
    for one in [look, plain_look] {
        let mut work: Vec<i32> = (0..WORK + rng.below(3))
            .map(|_| rng.bits() as i32)
            .collect();
        let length = file.syntax.cells() + rng.below(4);
        let before: Vec<i16> = (0..length).map(|_| rng.bits() as i16).collect();
        let mut instance = before.clone();
        assert_eq!(one(text, start, count, &mut work, &mut instance), expected);
        assert!(work.iter().all(|&number| number == 0));
        let mut after = before;
        if let Answer::Case(k) = expected {
            let cells = cells(&file.syntax, k);
            after[..cells.len()].copy_from_slice(&cells);
        }
        assert_eq!(instance, after);
    }
}

/// A list of looks at any file ends with its first case, or none.
#[test]
fn lists_of_looks() {
    let mut rng = Rng::new(6);
    for seed in 0..1_000 {
        let file = gen::file(seed);
        let text = write(&file);
        let first = (0..file.candidates).find(|&k| is_case(&file, k));
        let (mut work, mut instance) = (vec![0; WORK], vec![0; 512]);
        let mut start = 0;
        let last = loop {
            let count = rng.bits() % 200;
            match look(&text, start, count, &mut work, &mut instance) {
                Answer::Spent(next) => {
                    assert_eq!(next, start + count);
                    start = next;
                }
                other => break other,
            }
        };
        assert_eq!(last, first.map_or(Answer::NoCase, Answer::Case));
    }
}

#[test]
fn starts_and_counts() {
    assert_eq!(fresh_look(EXAMPLE, 0, 0), Answer::Spent(0));
    assert_eq!(fresh_look(EXAMPLE, 9, 0), Answer::Spent(9));
    assert_eq!(fresh_look(EXAMPLE, 12, 0), Answer::Spent(12));
    assert_eq!(fresh_look(EXAMPLE, 13, 0), Answer::NoCase);
    assert_eq!(fresh_look(EXAMPLE, 13, u64::MAX), Answer::NoCase);
    assert_eq!(fresh_look(EXAMPLE, 10, u64::MAX), Answer::Case(10));
    assert_eq!(fresh_look(EXAMPLE, 14, 0), refused(13, 0));
    assert_eq!(fresh_look(EXAMPLE, u64::MAX, u64::MAX), refused(13, 0));
}

#[test]
fn order_of_refusals() {
    let (short, full) = (WORK - 1, WORK);
    let run = |text: &str, start, work: usize, instance: usize| {
        let mut work = vec![3; work];
        let mut instance = vec![4; instance];
        let answer = look(text.as_bytes(), start, 1, &mut work, &mut instance);
        if matches!(answer, Answer::Refused { .. }) {
            assert!(work.iter().all(|&number| number == 3));
            assert!(instance.iter().all(|&number| number == 4));
        }
        answer
    };
    assert_eq!(run("", 99, short, 0), refused(11, 0));
    assert_eq!(run("", 99, full, 0), refused(1, 0));
    assert_eq!(run("00\n", 99, full, 0), refused(3, 1));
    let large = text(&["01 02 01 00 0000 1000", "03 01 00 01 10 010000", "07 01 00"]);
    assert_eq!(run(&large, u64::MAX, full, 0), refused(10, 0));
    assert_eq!(run(EXAMPLE, 14, full, 0), refused(12, 0));
    assert_eq!(run(EXAMPLE, 14, full, 1), refused(13, 0));
    assert_eq!(run(EXAMPLE, 13, full, 1), Answer::NoCase);
    let empty = text(&["01 00 01 00 0000 1000", "03 01 00 01 10 010000", "07 01 00"]);
    assert_eq!(run(&empty, 0, full, 0), Answer::NoCase);
}

/// A look at a damaged text is refused as the reader refuses it.
#[test]
fn looks_at_damaged_texts() {
    for seed in 0..20_000 {
        let text = gen::damage(&write(&gen::file(seed % 1_000)), seed);
        let (mut work, mut instance) = (vec![1; WORK], vec![2; 512]);
        let answer = look(&text, 0, 0, &mut work, &mut instance);
        match read(&text) {
            Err(refusal) => {
                assert_eq!(answer, refused(refusal.number, refusal.line));
                assert!(work.iter().all(|&number| number == 1));
            }
            Ok(_) => {
                assert_eq!(answer, Answer::Spent(0));
                assert!(work.iter().all(|&number| number == 0));
            }
        }
        assert!(instance.iter().all(|&number| number == 2));
    }
}

//! What the damage meets, and how fast things go. The timings are run by
//! `cargo test --release -- --ignored --nocapture`.

mod common;

use reference::bench::{self, Speed};
use reference::gen::{
    self, every_byte_change, every_exists_change, every_limit, Kind, Size, Way, WAYS,
};
use reference::{read, write, File};

const TEXTS: u64 = 200_000;

/// How often each refusal is met, 0 being acceptance.
fn met(texts: impl Iterator<Item = Vec<u8>>) -> [u64; 11] {
    let mut counts = [0; 11];
    for text in texts {
        let number = read(&text).map_or_else(|refusal| refusal.number, |_| 0);
        counts[usize::from(number)] += 1;
    }
    counts
}

fn damaged_texts(count: u64) -> impl Iterator<Item = Vec<u8>> {
    (0..count).map(|seed| gen::damage(&write(&gen::file(seed / 8)), seed))
}

#[test]
fn damage_meets_every_refusal() {
    let counts = met(damaged_texts(TEXTS));
    println!(
        "accepted {}, refused by number {:?}",
        counts[0],
        &counts[1..]
    );
    assert!(
        counts.iter().all(|&count| count > TEXTS / 400),
        "{counts:?}"
    );
}

#[test]
fn every_kind_of_damage_alone() {
    for (_, kind) in gen::KINDS {
        let texts =
            (0..2_000).map(|seed| gen::damage_of_kind(&write(&gen::file(seed)), kind, seed));
        let counts = met(texts);
        println!(
            "{kind:?}: accepted {}, refused by number {:?}",
            counts[0],
            &counts[1..]
        );
        assert!(counts[1..].iter().any(|&count| count > 0), "{kind:?}");
    }
}

/// Each way to go wrong with exists meets its refusals, and where it has one, no other.
#[test]
fn every_way_to_go_wrong_with_exists() {
    const FILES: u64 = 2_000;
    for way in WAYS {
        let kind = Kind::Exists(way);
        let text = |seed| gen::damage_of_kind(&write(&gen::file(seed)), kind, seed);
        let counts = met((0..FILES).map(text));
        println!(
            "{way:?}: accepted {}, refused by number {:?}",
            counts[0],
            &counts[1..]
        );
        let refused: u64 = counts[1..].iter().sum();
        for &number in way.refusals() {
            let count = counts[usize::from(number)];
            assert!(count >= 10, "{way:?}: {counts:?}");
            assert!(way.refusals().len() > 1 || count == refused, "{counts:?}");
        }
        let kept = [Way::Token, Way::Relation, Way::Inside, Way::Range].contains(&way);
        assert_eq!(counts[0] > 0, kept, "{way:?}: {counts:?}");
    }
}

/// Every byte of an exists changed to every other, and its frame cut behind that byte.
#[test]
fn all_changes_of_exists() {
    let texts = (0..40).map(|seed| write(&gen::file(seed)));
    let counts = met(texts.flat_map(|text| every_exists_change(&text)));
    println!(
        "bytes of exists: accepted {}, refused by number {:?}",
        counts[0],
        &counts[1..]
    );
    assert!([0, 4, 5, 6].iter().all(|&number| counts[number] >= 100));
}

#[test]
fn all_changes_of_a_few_files() {
    let limits = met((0..200).flat_map(|seed| every_limit(&write(&gen::file(seed)))));
    println!(
        "limits: accepted {}, refused by number {:?}",
        limits[0],
        &limits[1..]
    );
    // one step within a limit is accepted, and one past it refused by 5
    assert!(limits[0] > 0 && limits[5] > 0);
    let text = write(&gen::file(3));
    let bytes = met(every_byte_change(&text));
    println!(
        "bytes: accepted {}, refused by number {:?}",
        bytes[0],
        &bytes[1..]
    );
    assert_eq!(bytes.iter().sum::<u64>(), text.len() as u64 * 255);
}

fn show(name: &str, speed: Speed) {
    println!(
        "{name}: {} in {:.3} s, {:.0} a second",
        speed.done,
        speed.time.as_secs_f64(),
        speed.per_second()
    );
}

#[test]
#[ignore = "timing"]
fn walks() {
    for (name, text) in bench::WALKS {
        let file = common::accept(text);
        let (found, speed) = bench::first_case(&file);
        assert_eq!(found, None, "{name}");
        show(name, speed);
    }
}

#[test]
#[ignore = "timing"]
fn speeds() {
    let begin = std::time::Instant::now();
    let files: Vec<File> = (0..20_000).map(gen::file).collect();
    show(
        "files drawn",
        Speed {
            done: 20_000,
            time: begin.elapsed(),
        },
    );
    let texts: Vec<Vec<u8>> = files.iter().map(write).collect();
    show(
        "texts read",
        bench::texts(&texts, |text| drop(read(text).unwrap())),
    );
    let begin = std::time::Instant::now();
    let damaged: Vec<Vec<u8>> = texts
        .iter()
        .enumerate()
        .map(|(at, text)| gen::damage(text, at as u64))
        .collect();
    show(
        "texts damaged",
        Speed {
            done: 20_000,
            time: begin.elapsed(),
        },
    );
    show(
        "damaged texts read",
        bench::texts(&damaged, |text| drop(read(text))),
    );
    show(
        "reports",
        bench::texts(&texts, |text| drop(reference::report(text))),
    );
    let mut fast = Speed {
        done: 0,
        time: Default::default(),
    };
    let mut plain = fast;
    for file in &files[..2_000] {
        let (cases, speed) = bench::all_cases(file);
        fast.done += speed.done;
        fast.time += speed.time;
        let (plain_cases, speed) = bench::all_cases_plain(file);
        plain.done += speed.done;
        plain.time += speed.time;
        assert_eq!(cases, plain_cases);
    }
    show("candidates, small files, fast", fast);
    show("candidates, small files, plain", plain);
    let mut large = Speed {
        done: 0,
        time: Default::default(),
    };
    for seed in 0..100 {
        let (_, speed) = bench::all_cases(&gen::file_of_size(seed, Size::LARGE));
        large.done += speed.done;
        large.time += speed.time;
    }
    show("candidates, large files, fast", large);
}

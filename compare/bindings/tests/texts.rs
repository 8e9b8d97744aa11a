//! The checker beside an independent one: the same texts, the same refusals.
use reference::gen::{self, Kind, Way, KINDS, WAYS};
use std::collections::BTreeMap;

#[path = "../../reference/tests/common/mod.rs"]
mod common;

#[derive(Default)]
struct Tally {
    texts: u64,
    met: [u64; 16],
    /// Accepted texts with exists.
    exists: u64,
    /// Texts that met a refusal to which a way to go wrong with exists leads.
    ways: BTreeMap<Way, u64>,
}

impl Tally {
    /// Gives the refusal, 0 for none.
    fn compare(&mut self, text: &[u8]) -> u8 {
        let ours = match sakthveim::check(text) {
            Ok(()) => (0, 0),
            Err(r) => (r.number, r.line),
        };
        let theirs = match reference::read(text) {
            Ok(file) => {
                self.exists += u64::from(file.syntax.has_exists());
                (0, 0)
            }
            Err(r) => (r.number, r.line),
        };
        assert_eq!(ours, theirs, "{:?}", String::from_utf8_lossy(text));
        self.texts += 1;
        self.met[usize::from(ours.0)] += 1;
        ours.0
    }

    /// Damage of one kind to each of the files.
    fn compare_damage(&mut self, kind: Kind, files: &[Vec<u8>]) {
        for (seed, text) in (0..).zip(files) {
            let number = self.compare(&gen::damage_of_kind(text, kind, seed));
            if let Kind::Exists(way) = kind {
                let met = u64::from(way.refusals().contains(&number));
                *self.ways.entry(way).or_insert(0) += met;
            }
        }
    }

    /// Shows what was met: every refusal, and every way to go wrong with exists.
    fn finish(&self) {
        println!("{} texts, {} accepted with exists", self.texts, self.exists);
        assert!(self.texts >= 1_500_000 && self.exists >= 20_000);
        for number in 0..=10 {
            println!("refusal {number}: {}", self.met[number]);
            assert!(self.met[number] >= 500, "refusal {number}");
        }
        for way in WAYS {
            let met = self.ways.get(&way).copied().unwrap_or(0);
            println!("{way:?}: {met} refused by {:?}", way.refusals());
            assert!(met >= 500, "{way:?}");
        }
    }
}

#[test]
fn random_and_damaged_texts() {
    let mut tally = Tally::default();
    for seed in 0..20_000 {
        let text = reference::write(&gen::file(seed));
        tally.compare(&text);
        for k in 0..12 {
            tally.compare(&gen::damage(&text, seed * 16 + k));
        }
    }
    for seed in 0..20 {
        let text = reference::write(&gen::file(1_000_000 + seed));
        for damaged in gen::every_byte_change(&text) {
            tally.compare(&damaged);
        }
        for damaged in gen::every_limit(&text) {
            tally.compare(&damaged);
        }
        for damaged in gen::every_exists_change(&text) {
            tally.compare(&damaged);
        }
    }
    let mixed = |seed| reference::write(&gen::mixed_file(seed));
    let files: Vec<Vec<u8>> = (2_000_000..2_002_000).map(mixed).collect();
    for (_, kind) in KINDS {
        tally.compare_damage(kind, &files);
    }
    tally.finish();
}

fn answer(text: &str) -> (u8, u16) {
    match sakthveim::check(text.as_bytes()) {
        Ok(()) => (0, 0),
        Err(r) => (r.number, r.line),
    }
}

/// The texts of document 01, with the answers that it gives.
#[test]
fn texts_of_the_document() {
    use common::{text, EXAMPLE};
    assert_eq!(answer(EXAMPLE), (0, 0));
    assert_eq!(answer(&EXAMPLE.replace("070200", "070201")), (0, 0));
    assert_eq!(answer(&EXAMPLE.replace("070200", "070202")), (5, 4));
    assert_eq!(answer(""), (1, 0));
    assert_eq!(answer("01"), (2, 1));
    // M3
    for value in [14i16, 15, -15, -14, 5, -5, 0] {
        let view = format!("03 01 00 01 10 05000a 00{value:04x}");
        assert_eq!(
            answer(&text(&["01 01 01 00 0000 0000", &view, "07 01 00"])),
            (0, 0)
        );
    }
    // M4 to M9
    let views = ["03 01 00 01 10 010000", "03 01 01 01 10 010000"];
    let bags = ["01 02 01 00 0005 0005", "01 01 01 00 0005 0005"];
    let four = [
        bags[0], bags[1], views[0], views[1], "05 02 03", "06 02 03", "07 04 00",
    ];
    assert_eq!(answer(&text(&four)), (0, 0));
    for table in [
        "01 02 01 00 0000 0003",
        "01 00 01 00 0000 0003",
        "01 02 01 01 0004 0004",
    ] {
        for goal in ["07 01 00", "07 01 01"] {
            assert_eq!(answer(&text(&[table, views[0], goal])), (0, 0));
        }
    }
    let having = "04 01 00 00 01 10 12 000064 0701 010000 0701 010000";
    assert_eq!(
        answer(&text(&["01 02 01 00 0032 0033", having, "07 01 00"])),
        (0, 0)
    );
    let none = "04 01 00 00 01 1410 10 0700 010000";
    assert_eq!(
        answer(&text(&["01 02 01 00 0000 0003", none, "07 01 00"])),
        (0, 0)
    );
    // M10
    let goal = ["03 01 00 01 10 010000", "07 01 00"];
    let cells = |last| {
        text(&[
            &format!("01 01 02 00 0000 0fff 0000 {last}"),
            goal[0],
            goal[1],
        ])
    };
    assert_eq!(answer(&cells("0fff")), (0, 0));
    assert_eq!(answer(&cells("1000")), (10, 0));
    // M11
    let (eight, two) = ("01 08 01 00 0000 0000", "01 02 01 00 0000 0000");
    let small = text(&[eight, eight, two, "03 02 00 01 01 10 010000", "07 03 00"]);
    assert_eq!(answer(&small), (0, 0));
    let large = text(&[eight, eight, two, "03 03 00 01 02 01 10 010000", "07 03 00"]);
    assert_eq!(answer(&large), (8, 4));
    // M12
    let sum = "03 01 00 01 10 02 04 010000 010000 04 010000 010000";
    let ends = |lo| text(&[&format!("01 01 01 00 {lo} 7fff"), sum, "07 01 00"]);
    assert_eq!(answer(&ends("8001")), (0, 0));
    assert_eq!(answer(&ends("8000")), (9, 2));
}

/// Texts with exists, made by hand with their refusals.
#[test]
fn texts_with_exists() {
    use common::exists::{files, views, with_view};
    for (view, number) in views() {
        let line = if number == 0 { 0 } else { 3 };
        assert_eq!(answer(&with_view(view)), (number, line), "{view}");
    }
    for (text, told) in files() {
        let expected = match told {
            reference::Answer::Refused { number, line } => (number, line),
            _ => (0, 0),
        };
        assert_eq!(answer(&text), expected, "{text}");
    }
}

/// A text over 8,192 bytes is refused before it is read.
#[test]
fn long_texts() {
    for length in [8_192, 8_193, 65_536, 1 << 20] {
        for byte in [0u8, 10, b'0', 255] {
            let text = vec![byte; length];
            let expected = if length > 8_192 { (1, 0) } else { (2, 1) };
            let refusal = sakthveim::check(&text).unwrap_err();
            assert_eq!((refusal.number, refusal.line), expected);
        }
    }
}

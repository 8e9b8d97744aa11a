//! Texts for both programs: accepted, damaged and random ones.
#![allow(dead_code)]

#[path = "../../../reference/tests/common/mod.rs"]
pub mod common;

use common::{text, EXAMPLE};
use reference::gen::{self, Kind, Rng, Size, KINDS};
use reference::{read, write};

/// Texts by twice so many accepted files: these, and damage of every kind done to them; larger
/// files, random bytes, and too many candidates.
pub fn random_and_damaged(files: u64) -> Vec<Vec<u8>> {
    let plain = (0..files).map(|seed| write(&gen::file(seed)));
    let mixed = (0..files).map(|seed| write(&gen::mixed_file(seed)));
    let files: Vec<Vec<u8>> = plain.chain(mixed).collect();
    let mut texts = Vec::new();
    for (seed, file) in (0..).zip(&files) {
        texts.push(file.clone());
        texts.push(gen::damage(file, seed));
        // rules on whole frames, which other damage seldom reaches
        texts.push(gen::damage_of_kind(file, Kind::Spoil, seed));
    }
    for (_, kind) in KINDS {
        let damaged = (0..50).zip(&files);
        texts.extend(damaged.map(|(seed, file)| gen::damage_of_kind(file, kind, seed)));
    }
    let larger = Size {
        candidates: 1 << 14,
        ..Size::SMALL
    };
    texts.extend((0..200).map(|seed| write(&gen::file_of_size(seed, larger))));
    let mut rng = Rng::new(0);
    texts.extend((0..200).map(|_| random_bytes(&mut rng)));
    texts.extend((1..=50).map(|size| too_many_candidates(size).into_bytes()));
    texts
}

/// Damage may widen columns. The first program is not asked about a file with more candidates than
/// this.
const MOST: u64 = 1 << 16;

/// Whether a search of the text would take long.
pub fn is_long(text: &[u8]) -> bool {
    read(text).is_ok_and(|file| file.candidates > MOST)
}

/// Whether the text is an accepted file with exists.
pub fn has_exists(text: &[u8]) -> bool {
    read(text).is_ok_and(|file| file.syntax.has_exists())
}

/// A text of random bytes, most of them short.
fn random_bytes(rng: &mut Rng) -> Vec<u8> {
    let length = match rng.below(10) {
        0 => rng.below(20_000),
        1..=3 => rng.below(1_000),
        _ => rng.below(60),
    };
    (0..length).map(|_| rng.bits() as u8).collect()
}

/// The example with a table of more than 2^24 candidates.
fn too_many_candidates(size: u16) -> String {
    let table = format!("01 01 02 00 0000 0fff 0000 {:04x}", 0x0fff + size);
    let frames: Vec<&str> = EXAMPLE.lines().skip(1).collect();
    text(&[&table, frames[0], frames[1], frames[2]])
}

/// The example, and lines after its goal, so that it has exactly 8,192 bytes.
pub fn longest() -> Vec<u8> {
    let line = |bytes: usize| "07".repeat(bytes) + "\n";
    let longest = EXAMPLE.to_owned() + &line(120).repeat(33);
    let left = 8_192 - longest.len();
    (longest + &line(left / 2)).into_bytes()
}

/// Texts that are too long, and whose first bytes are the accepted example.
pub fn too_long() -> Vec<Vec<u8>> {
    let example = EXAMPLE.as_bytes();
    let mut texts = Vec::new();
    for length in [8_193, 8_400, 65_536, 100_000, 1 << 21] {
        texts.push(example.iter().copied().cycle().take(length).collect());
        texts.push([example, &vec![0; length]].concat());
    }
    texts
}

/// Bytes as they are shown where a test fails.
pub fn shown(bytes: &[u8]) -> String {
    String::from_utf8_lossy(bytes).into_owned()
}

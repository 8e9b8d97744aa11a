//! Plain timing of the reader and the search.

use crate::look::{is_case, WORK};
use crate::search::Search;
use crate::syntax::File;
use std::time::{Duration, Instant};

/// How much was done in how long.
#[derive(Clone, Copy, Debug)]
pub struct Speed {
    /// The number of things done: candidates, or texts.
    pub done: u64,
    /// The time it took.
    pub time: Duration,
}

impl Speed {
    /// Things done in a second.
    pub fn per_second(self) -> f64 {
        self.done as f64 / self.time.as_secs_f64().max(1e-9)
    }
}

/// Tries all candidates of a file by the fast search; gives the number of cases and the speed in
/// candidates.
pub fn all_cases(file: &File) -> (u64, Speed) {
    let mut work = vec![0; WORK];
    let begin = Instant::now();
    let search = Search::new(file);
    let cases = search.count_cases(0, file.candidates, &mut work);
    (cases, speed(file.candidates, begin))
}

/// The same by the plain evaluator.
pub fn all_cases_plain(file: &File) -> (u64, Speed) {
    let begin = Instant::now();
    let cases = (0..file.candidates).filter(|&k| is_case(file, k)).count();
    (cases as u64, speed(file.candidates, begin))
}

/// Searches from 0 to the first case or the end, as the program does.
pub fn first_case(file: &File) -> (Option<u64>, Speed) {
    let mut work = vec![0; WORK];
    let begin = Instant::now();
    let found = Search::new(file).first_case(0, file.candidates, &mut work);
    let done = found.map_or(file.candidates, |k| k + 1);
    (found, speed(done, begin))
}

/// Does something for each text.
pub fn texts(texts: &[Vec<u8>], mut each: impl FnMut(&[u8])) -> Speed {
    let begin = Instant::now();
    texts.iter().for_each(|text| each(text));
    speed(texts.len() as u64, begin)
}

fn speed(done: u64, begin: Instant) -> Speed {
    Speed {
        done,
        time: begin.elapsed(),
    }
}

/// Texts of files without a case, so that a search walks all their candidates.
pub const WALKS: [(&str, &str); 7] = [
    (
        "one row, a view of a view, 2^24",
        "0101020000000fff00000fff\n\
        0301000212000008010000010000010001\n\
        030101011202010000010001000000010000\n\
        070200\n",
    ),
    (
        "four keyed rows, negative goal, 2^20",
        "010401010000001f\n\
        0301000112010000000020010000\n\
        070101\n",
    ),
    (
        "three from items, 2^20",
        "010201000000001f\n\
        010201000000001f\n\
        0303000100011102010000010100000064010200\n\
        070200\n",
    ),
    (
        "groups of four rows, 2^20",
        "01040200000000010000000f\n\
        04010001021000001200004007010100010100000701010001\n\
        070100\n",
    ),
    (
        "union and intersection, 2^20",
        "010401000000001f\n\
        0301000112010000000010010000\n\
        0301000113000010010000010000\n\
        060102\n\
        050303\n\
        0301040110010000\n\
        070500\n",
    ),
    (
        "few valid candidates, 2^20",
        "010201010000001f\n\
        010201000000001f\n\
        020100010000\n\
        040200010101110100000101000000120000050700000000010000\n\
        070200\n",
    ),
    (
        "an exists in an exists, 2^20",
        "010201000000001f\n\
        010201000000001f\n\
        0301010112000008010000010000\n\
        03010001170115120100000101001702151201010001020012010200010000010000\n\
        070300\n",
    ),
];

//! What a look costs, beside a plain search in Rust.
//!
//! `bench` prints the candidates searched in a second, and `bench instructions` the instructions
//! for a candidate, counted by callgrind. `bench NAME proved|plain|fast COUNT` makes the look that
//! is counted, at the first COUNT candidates of a file.
//!
//! The plain search tries the definition of a case on one candidate after another. The fast one
//! walks as the proved one does, with nothing allocated for a candidate.

mod files;

use files::FILES;
use sakthveim::WORK;
use std::process::Command;
use std::time::Instant;

/// The searches.
const SEARCHES: [&str; 3] = ["proved", "plain", "fast"];

fn text(frames: &[&str]) -> Vec<u8> {
    let lines = frames.iter().map(|frame| frame.replace(' ', "") + "\n");
    lines.collect::<String>().into_bytes()
}

/// The number of candidates.
fn candidates(text: &[u8]) -> u64 {
    reference::read(text).expect("an accepted file").candidates
}

/// One look at the first candidates, none of which is a case.
fn look(search: &str, text: &[u8], count: u64) {
    let (mut work, mut instance) = ([0; WORK], [0; 512]);
    if search == "proved" {
        use sakthveim::Answer::{NoCase, Spent};
        let answer = sakthveim::look(text, 0, count, &mut work, &mut instance);
        assert!(matches!(answer, NoCase | Spent(_)), "{answer:?}");
    } else {
        use reference::Answer::{NoCase, Spent};
        let look = match search {
            "plain" => reference::plain_look,
            "fast" => reference::look,
            _ => panic!("one of {SEARCHES:?}"),
        };
        let answer = look(text, 0, count, &mut work, &mut instance);
        assert!(matches!(answer, NoCase | Spent(_)), "{answer:?}");
    }
}

/// Candidates searched in a second, in millions: the best of five looks.
fn speed(search: &str, text: &[u8], count: u64) -> f64 {
    let time = || {
        let begin = Instant::now();
        look(search, text, count);
        begin.elapsed().as_secs_f64()
    };
    let best = (0..5).map(|_| time()).fold(f64::INFINITY, f64::min);
    count as f64 / 1e6 / best
}

fn speeds() {
    println!("| file | N | proved | plain | fast |\n|---|---|---|---|---|");
    for (name, what, frames) in FILES {
        let text = text(frames);
        let n = candidates(&text);
        let [proved, plain, fast] = SEARCHES.map(|search| speed(search, &text, n));
        let power = n.ilog2();
        println!("| `{name}`: {what} | 2^{power} | {proved:.2} | {plain:.2} | {fast:.2} |");
    }
}

/// The instructions of this program when it makes one look.
fn counted(search: &str, name: &str, count: u64) -> f64 {
    let output = Command::new("valgrind")
        .args(["--tool=callgrind", "--callgrind-out-file=/dev/null"])
        .arg(std::env::current_exe().expect("this program"))
        .args([name, search, &count.to_string()])
        .output()
        .expect("valgrind");
    let said = String::from_utf8_lossy(&output.stderr);
    // A run that was ended early says a count too.
    assert!(output.status.success(), "{}: {said}", output.status);
    let count = said
        .split_once("Collected : ")
        .map(|(_, rest)| rest.lines());
    let count = count.and_then(|mut rest| rest.next()?.parse().ok());
    count.unwrap_or_else(|| panic!("no count: {said}"))
}

/// Instructions for a candidate, reading the file left out: by the difference of two looks.
fn instructions() {
    println!("| file | proved | plain | proved / plain | fast | proved / fast |");
    println!("|---|---|---|---|---|---|");
    for (name, _, frames) in FILES {
        let (few, many) = (1 << 10, candidates(&text(frames)).min(1 << 20));
        let [proved, plain, fast] = SEARCHES.map(|search| {
            let more = counted(search, name, many) - counted(search, name, few);
            more / (many - few) as f64
        });
        let (to_plain, to_fast) = (proved / plain, proved / fast);
        print!("| `{name}` | {proved:.0} | {plain:.0} | {to_plain:.2} ");
        println!("| {fast:.0} | {to_fast:.2} |");
    }
}

fn main() {
    let words: Vec<String> = std::env::args().skip(1).collect();
    match &words.iter().map(String::as_str).collect::<Vec<_>>()[..] {
        [] => speeds(),
        ["instructions"] => instructions(),
        [name, search, count] => {
            let file = FILES.iter().find(|file| file.0 == *name).expect("a file");
            look(search, &text(file.2), count.parse().expect("a count"));
        }
        _ => panic!("bench [instructions | NAME proved|plain|fast COUNT]"),
    }
}

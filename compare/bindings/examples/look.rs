//! Searches the rule file on standard input from 0 to the end, COUNT candidates at a time:
//! `look COUNT < rules.txt`.
use sakthveim::{look, Answer, Language, Refusal, WORK};
use std::io::Read;

fn main() {
    let count = std::env::args().nth(1).and_then(|word| word.parse().ok());
    let count = count.filter(|&count| count > 0).expect("a count above 0");
    let mut text = Vec::new();
    std::io::stdin()
        .read_to_end(&mut text)
        .expect("standard input");
    let mut work = [0; WORK];
    let mut instance = Vec::new();
    let mut start = 0;
    loop {
        match look(&text, start, count, &mut work, &mut instance) {
            // Too short for the cells: so it grows until it has exactly their number.
            Answer::Refused(Refusal { number: 12, .. }) => instance.push(0),
            Answer::Refused(refusal) => {
                println!("refusal {}, line {}", refusal.number, refusal.line);
                return println!("{}", refusal.sentence(Language::English));
            }
            Answer::Spent(next) => {
                println!("spent, next {next}");
                start = next;
            }
            Answer::Case(k) => return println!("case {k}, cells {instance:?}"),
            Answer::NoCase => return println!("no case"),
        }
    }
}

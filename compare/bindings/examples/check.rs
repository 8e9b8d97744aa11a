//! Checks the rule file on standard input: `check < rules.txt`.
use sakthveim::Language;
use std::io::Read;

fn main() {
    let mut text = Vec::new();
    std::io::stdin()
        .read_to_end(&mut text)
        .expect("standard input");
    match sakthveim::check(&text) {
        Ok(()) => println!("accepted"),
        Err(refusal) => {
            println!("refusal {}, line {}", refusal.number, refusal.line);
            println!("{}", refusal.sentence(Language::English));
        }
    }
}

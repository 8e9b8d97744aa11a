//! `examples/`: each rule file is explained by its stored text and made from it; stored answers are
//! understood, and a refusal is shown by its line and its stored sheet.

mod common;

use common::round_trip;
use rulefile::{answer, assemble, explain};
use std::fs;
use std::path::{Path, PathBuf};

/// The rule files of a directory below `examples`.
fn rule_files(below: &str) -> Vec<PathBuf> {
    let home = Path::new(env!("CARGO_MANIFEST_DIR")).join("../../examples");
    let entries = fs::read_dir(home.join(below)).expect("a directory");
    let paths = entries.map(|entry| entry.expect("an entry").path());
    let mut files: Vec<PathBuf> = paths
        .filter(|path| path.extension().is_some_and(|it| it == "rules"))
        .collect();
    assert!(!files.is_empty());
    files.sort();
    files
}

fn bytes(path: &Path) -> Vec<u8> {
    fs::read(path).unwrap_or_else(|error| panic!("{}: {error}", path.display()))
}

fn text(path: &Path) -> String {
    String::from_utf8(bytes(path)).expect("text")
}

#[test]
fn texts() {
    for path in rule_files("") {
        let (name, rules) = (path.display().to_string(), bytes(&path));
        let readable = text(&path.with_extension("sql"));
        assert_eq!(explain(&rules).as_ref(), Ok(&readable), "{name}");
        let assembled = assemble(readable.as_bytes()).expect("frames");
        assert!(assembled.frames == rules, "{name}");
        assert_eq!(assembled.refusal, None, "{name}");
        round_trip(&rules, &name);
    }
}

/// The case number in words is the one of frame 80.
#[test]
fn answers() {
    for path in rule_files("") {
        let (name, stored) = (path.display(), text(&path.with_extension("answer")));
        let shown = answer::explain(&bytes(&path), stored.as_bytes());
        let shown = shown.unwrap_or_else(|why| panic!("{name}: {why}"));
        let first = stored.lines().next().expect("a line");
        let expected = match first.strip_prefix("80") {
            Some(k) => format!("case {}\n\n", u32::from_str_radix(k, 16).expect("digits")),
            None => "no case\n".to_owned(),
        };
        assert!(shown.starts_with(&expected), "{name}: {shown}");
    }
}

#[test]
fn refusals() {
    for path in rule_files("refused") {
        let (name, rules) = (path.display(), text(&path));
        let stored = text(&path.with_extension("answer"));
        let line = usize::from_str_radix(&stored[4..8], 16).expect("digits");
        let offending = match line {
            0 => String::new(),
            _ => format!("    {}\n", rules.lines().nth(line - 1).expect("a line")),
        };
        let expected = offending + &text(&path.with_extension("sheet"));
        assert_eq!(explain(rules.as_bytes()).as_ref(), Err(&expected), "{name}");
        let shown = answer::explain(rules.as_bytes(), stored.as_bytes());
        assert_eq!(shown, Ok(expected), "{name}");
    }
}

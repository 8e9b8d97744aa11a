//! `examples/`: each rule file gives its stored answer and, where it is refused, its stored sheet,
//! and its other files are there.

mod program;

use program::{GENERATE, SHEET};
use reference::sentence::sheet;
use reference::syntax::{Grouped, View};
use reference::{read, report, File, Syntax};
use std::collections::BTreeSet;
use std::fs;
use std::path::{Path, PathBuf};

fn examples() -> PathBuf {
    Path::new(env!("CARGO_MANIFEST_DIR")).join("../../examples")
}

/// The files of a directory, and of those in it, that have an extension.
fn files(directory: &Path, extension: &str) -> Vec<PathBuf> {
    let mut files = Vec::new();
    for entry in fs::read_dir(directory).expect("a directory") {
        let path = entry.expect("an entry").path();
        if path.is_dir() {
            files.extend(self::files(&path, extension));
        } else if path.extension().is_some_and(|it| it == extension) {
            files.push(path);
        }
    }
    files.sort();
    files
}

/// Every rule file: the accepted ones, and those in `refused`.
fn rule_files() -> (Vec<PathBuf>, Vec<PathBuf>) {
    let examples = examples();
    let files = files(&examples, "rules");
    files
        .into_iter()
        .partition(|path| path.parent() == Some(&examples))
}

fn accepted() -> Vec<PathBuf> {
    rule_files().0
}

fn refused() -> Vec<PathBuf> {
    rule_files().1
}

fn bytes(path: &Path) -> Vec<u8> {
    fs::read(path).unwrap_or_else(|error| panic!("{}: {error}", path.display()))
}

fn stored_answer(rules: &Path) -> Vec<u8> {
    bytes(&rules.with_extension("answer"))
}

fn file(rules: &Path) -> File {
    read(&bytes(rules)).unwrap_or_else(|refusal| panic!("{}: {refusal:?}", rules.display()))
}

fn shown(bytes: &[u8]) -> String {
    String::from_utf8_lossy(bytes).into_owned()
}

#[test]
fn stored_answers() {
    for rules in accepted().iter().chain(&refused()) {
        let (name, text, stored) = (rules.display(), bytes(rules), stored_answer(rules));
        assert_eq!(shown(&GENERATE.answer(&text)), shown(&stored), "{name}");
        assert_eq!(shown(&report(&text)), shown(&stored), "{name}");
    }
}

/// The second program prints the stored sheet of a refused file, and nothing for an accepted one.
#[test]
fn stored_sheets() {
    let accepted = accepted().into_iter().map(|rules| (rules, Vec::new()));
    let refused = refused().into_iter().map(|rules| {
        let stored = bytes(&rules.with_extension("sheet"));
        (rules, stored)
    });
    for (rules, stored) in accepted.chain(refused) {
        let (name, text) = (rules.display(), bytes(&rules));
        assert_eq!(shown(&SHEET.answer(&text)), shown(&stored), "{name}");
        assert_eq!(shown(&sheet(&text)), shown(&stored), "{name}");
    }
}

#[test]
fn every_example_is_whole() {
    let accepted = accepted();
    println!("{} examples, {} refused", accepted.len(), refused().len());
    assert!(accepted.len() >= 12);
    for rules in &accepted {
        for extension in ["sql", "md", "answer"] {
            let path = rules.with_extension(extension);
            assert!(path.is_file(), "{}", path.display());
        }
    }
    for rules in &refused() {
        for extension in ["answer", "sheet"] {
            let path = rules.with_extension(extension);
            assert!(path.is_file(), "{}", path.display());
        }
    }
}

#[test]
fn no_file_without_its_rules() {
    for extension in ["sql", "md", "answer", "sheet"] {
        for path in files(&examples(), extension) {
            let readme = path.ends_with("README.md");
            let whole = path.with_extension("rules").is_file();
            assert!(readme || whole, "{}", path.display());
        }
    }
}

/// Only a refused file has a sheet.
#[test]
fn sheets_of_refused_files_alone() {
    let of = |rules: &PathBuf| rules.with_extension("sheet");
    let expected: Vec<PathBuf> = refused().iter().map(of).collect();
    assert_eq!(files(&examples(), "sheet"), expected);
}

/// The sheet that the document shows is the stored one.
#[test]
fn a_sheet_in_the_document() {
    let refused = examples().join("refused");
    let document = shown(&bytes(&refused.join("README.md")));
    let stored = shown(&bytes(&refused.join("8-too-many-rows.sheet")));
    assert!(document.replace("\n    ", "\n").contains(&stored));
}

/// The document beside a rule file names it.
#[test]
fn every_example_is_listed() {
    for path in files(&examples(), "rules") {
        let document = path.with_file_name("README.md");
        let listed = String::from_utf8(bytes(&document)).expect("text");
        let name = path.file_stem().and_then(|it| it.to_str()).expect("a name");
        let row = [format!("| [{name}]({name}.md) |"), format!("| `{name}` |")];
        assert!(row.iter().any(|row| listed.contains(row)), "{name}");
    }
}

/// Accepted examples end in a case or in "no case", the refused in the number of their name.
#[test]
fn kinds_of_answers() {
    let answers: Vec<Vec<u8>> = accepted().iter().map(|it| stored_answer(it)).collect();
    let begin = |mark: &[u8]| answers.iter().filter(|it| it.starts_with(mark)).count();
    let (cases, none) = (begin(b"80"), begin(b"82"));
    println!("{cases} cases, {none} times no case");
    assert_eq!(cases + none, answers.len());
    assert!(cases >= 4 && none >= 4);
    let mut numbers = BTreeSet::new();
    for rules in refused() {
        let name = rules.file_name().and_then(|it| it.to_str()).expect("text");
        let number: u8 = name
            .split('-')
            .next()
            .and_then(|it| it.parse().ok())
            .expect("a number");
        let begin = format!("8f{number:02x}");
        assert!(
            stored_answer(&rules).starts_with(begin.as_bytes()),
            "{name}"
        );
        numbers.insert(number);
    }
    assert_eq!(numbers, (1..=10).collect());
}

/// The from list of a view.
fn from(view: &View) -> &[u8] {
    match view {
        View::Basic(basic) => &basic.from,
        View::Aggregate(Grouped { from, .. }) => from,
        View::Union(..) | View::Intersection(..) => &[],
    }
}

/// Two rows of one relation are set side by side.
fn names_one_twice(view: &View) -> bool {
    let from = from(view);
    let distinct: BTreeSet<&u8> = from.iter().collect();
    distinct.len() < from.len()
}

/// How many views stand one on the other, this relation the topmost.
fn depth(syntax: &Syntax, relation: usize) -> usize {
    let below = match syntax.view(relation) {
        None => return 0,
        Some(View::Union(left, right) | View::Intersection(left, right)) => vec![*left, *right],
        Some(view) => from(view).to_vec(),
    };
    let depths = below.iter().map(|&it| depth(syntax, usize::from(it)));
    1 + depths.max().unwrap_or(0)
}

fn kind(view: Option<&View>) -> &'static str {
    match view {
        None => "table",
        Some(View::Basic(_)) => "basic",
        Some(View::Aggregate(_)) => "aggregate",
        Some(View::Union(..)) => "union",
        Some(View::Intersection(..)) => "intersection",
    }
}

/// What an example uses, beside the words of its readable text.
fn used(syntax: &Syntax) -> BTreeSet<String> {
    let mut used = BTreeSet::new();
    let mut note = |name: &str, is: bool| is && used.insert(name.to_owned());
    for table in &syntax.tables {
        note("a primary key", table.key_mask != 0);
    }
    for key in &syntax.keys {
        note("a foreign key to itself", key.child == key.parent);
        note("a foreign key of two pairs", key.pairs.len() == 2);
    }
    for view in &syntax.views {
        if let View::Aggregate(grouped) = view {
            let count = grouped.grouping.len();
            note(&format!("{count} grouping columns"), true);
        }
    }
    let goal = usize::from(syntax.goal.view);
    let negative = syntax.goal.negative;
    let sign = if negative { "negative" } else { "positive" };
    note(&format!("{sign} {}", kind(syntax.view(goal))), true);
    note("three views stacked", depth(syntax, goal) >= 3);
    note("exists", syntax.has_exists());
    used
}

const USED: [&str; 15] = [
    "a primary key",
    "a foreign key to itself",
    "a foreign key of two pairs",
    "0 grouping columns",
    "1 grouping columns",
    "2 grouping columns",
    "positive basic",
    "positive aggregate",
    "positive intersection",
    "negative basic",
    "negative aggregate",
    "negative union",
    "negative intersection",
    "three views stacked",
    "exists",
];

/// The words of tokens 04 to 07, of having and of exists over a table and a view.
const WORDS: [&str; 10] = [
    " * ",
    "ROUND(",
    "CASE",
    "COUNT(",
    "SUM(",
    "MIN(",
    "MAX(",
    "HAVING",
    "EXISTS (FROM t",
    "EXISTS (FROM v",
];

#[test]
fn what_the_examples_use() {
    let files: Vec<File> = accepted().iter().map(|it| file(it)).collect();
    let of_each = files.iter().map(|file| used(&file.syntax));
    let together: BTreeSet<String> = of_each.flatten().collect();
    for name in USED {
        assert!(together.contains(name), "{name}");
    }
    let twice = |file: &&File| file.syntax.views.iter().any(names_one_twice);
    assert!(files.iter().filter(twice).count() >= 2);
    let texts: Vec<Vec<u8>> = accepted()
        .iter()
        .map(|it| bytes(&it.with_extension("sql")))
        .collect();
    let readable = String::from_utf8(texts.concat()).expect("text");
    for word in WORDS {
        assert!(readable.contains(word), "{word}");
    }
}

/// Each is answered at once.
#[test]
fn few_candidates() {
    for rules in accepted() {
        assert!(file(&rules).candidates <= 1 << 20, "{}", rules.display());
    }
}

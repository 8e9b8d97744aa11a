//! The library from C: the programs in `compare/c` compile without a warning where only the header
//! and the library are, and say what document 01 and the reference do.

use reference::sentence::sheet;
use std::path::{Path, PathBuf};
use std::process::Command;
use std::{env, fs, process};

fn repository() -> PathBuf {
    Path::new(env!("CARGO_MANIFEST_DIR")).join("../..")
}

fn output(command: &mut Command) -> String {
    let output = command.output().expect("the command runs");
    let said = String::from_utf8_lossy(&output.stderr);
    assert!(output.status.success(), "{said}");
    String::from_utf8(output.stdout).expect("text")
}

/// A new folder with these files of the repository.
fn folder(name: &str, files: &[&str]) -> PathBuf {
    let folder = env::temp_dir().join(format!("sakthveim-{name}-{}", process::id()));
    fs::create_dir(&folder).expect("a new folder");
    for file in files {
        let from = repository().join(file);
        let name = from.file_name().expect("a name");
        fs::copy(&from, folder.join(name)).unwrap_or_else(|error| panic!("{file}: {error}"));
    }
    folder
}

/// What a program in `compare/c` prints.
fn said(program: &str) -> String {
    let source = format!("{program}.c");
    let folder = folder(
        program,
        &[
            &format!("compare/c/{source}"),
            "include/sakthveim.h",
            "target/staticlib/libexport.a",
        ],
    );
    output(
        Command::new("cc")
            .current_dir(&folder)
            .args(["-std=c11", "-Wall", "-Wextra", "-pedantic", "-Werror"])
            .args(["-o", program, &source, "libexport.a"]),
    );
    let said = output(&mut Command::new(folder.join(program)));
    fs::remove_dir_all(&folder).expect("the folder goes");
    said
}

#[test]
fn look_from_c() {
    assert_eq!(said("look"), "case 9, cells [9]\n");
}

/// Both sentences of a refused text, as on its sheet.
#[test]
fn sentence_from_c() {
    let sheet = String::from_utf8(sheet(b"070000\n")).expect("text");
    assert!(sheet.starts_with("Line 1: it names a relation, "));
    assert_eq!(said("sentence"), sheet);
}

/// The header's numbers are those of the wrapper.
#[test]
fn numbers_of_the_header() {
    use sakthveim::Language::{English, French};
    let header = fs::read_to_string(repository().join("include/sakthveim.h")).expect("the header");
    let number = |name: &str| {
        let (_, rest) = header.split_once(&format!("#define {name} "))?;
        let (digits, _) = rest.split_once('u')?;
        digits.parse::<usize>().ok()
    };
    assert_eq!(number("SAKTHVEIM_WORK"), Some(sakthveim::WORK));
    assert_eq!(number("SAKTHVEIM_STACK"), Some(sakthveim::STACK));
    assert_eq!(number("SAKTHVEIM_SENTENCE"), Some(sakthveim::SENTENCE));
    assert_eq!(number("SAKTHVEIM_ENGLISH"), Some(English as usize));
    assert_eq!(number("SAKTHVEIM_FRENCH"), Some(French as usize));
}

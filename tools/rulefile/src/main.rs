//! `rulefile explain`, `rulefile explain --answer FILE`, `rulefile assemble`.

use std::io::{self, Read, Write};
use std::process::ExitCode;

const USAGE: &str = "\
rulefile: a reader's tool for rule files. It is a convenience and proves nothing.

    rulefile explain < RULES                  a rule file as readable text
    rulefile explain --answer FILE < RULES    the program's answer in FILE as tables and SQL
    rulefile assemble < TEXT                  readable text back to a rule file
";

fn main() -> ExitCode {
    let arguments: Vec<String> = std::env::args().skip(1).collect();
    let arguments: Vec<&str> = arguments.iter().map(String::as_str).collect();
    match run(&arguments) {
        Ok(code) => code,
        Err(error) => failed(&error.to_string()),
    }
}

fn run(arguments: &[&str]) -> io::Result<ExitCode> {
    match arguments {
        ["explain"] => explain(&input()?),
        ["explain", "--answer", file] => {
            let answer = std::fs::read(file)?;
            print_or_fail(rulefile::answer::explain(&input()?, &answer))
        }
        ["assemble"] => assemble(&input()?),
        ["--help" | "-h" | "help"] => print_or_fail(Ok(USAGE.to_owned())),
        _ => Ok(failed(USAGE)),
    }
}

fn input() -> io::Result<Vec<u8>> {
    let mut input = Vec::new();
    io::stdin().read_to_end(&mut input)?;
    Ok(input)
}

fn failed(why: &str) -> ExitCode {
    eprintln!("{}", why.trim_end());
    ExitCode::FAILURE
}

fn print_or_fail(text: Result<String, String>) -> io::Result<ExitCode> {
    match text {
        Ok(text) => io::stdout().write_all(text.as_bytes())?,
        Err(why) => return Ok(failed(&why)),
    }
    Ok(ExitCode::SUCCESS)
}

/// A refusal is printed where the text would be.
fn explain(rules: &[u8]) -> io::Result<ExitCode> {
    let (text, code) = match rulefile::explain(rules) {
        Ok(text) => (text, ExitCode::SUCCESS),
        Err(refusal) => (refusal, ExitCode::FAILURE),
    };
    io::stdout().write_all(text.as_bytes())?;
    Ok(code)
}

/// Frames that would be refused are printed as well, and the refusal beside them.
fn assemble(text: &[u8]) -> io::Result<ExitCode> {
    let assembled = match rulefile::assemble(text) {
        Ok(assembled) => assembled,
        Err(fault) => return Ok(failed(&fault.to_string())),
    };
    io::stdout().write_all(&assembled.frames)?;
    Ok(match assembled.refusal {
        Some(refusal) => failed(&refusal),
        None => ExitCode::SUCCESS,
    })
}

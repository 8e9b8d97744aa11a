//! A proved program, run on a text.
#![allow(dead_code)]

use std::fs::File;
use std::io::{ErrorKind, Write};
use std::path::{Path, PathBuf};
use std::process::{ChildStdin, Command, Output, Stdio};
use std::thread;
use std::time::Duration;

/// A program, by its name in `target/bin`.
#[derive(Clone, Copy)]
pub struct Program(&'static str);

/// The first program: it prints the answer to a text in frames.
pub const GENERATE: Program = Program("generate");

/// The second program: it prints the sentences of a refusal.
pub const SHEET: Program = Program("sheet");

/// For `ulimit`: either program needs less than 256 KiB of stack, what the system puts there
/// included.
pub const STACK: &str = "-s 256";

impl Program {
    /// What the program prints for a text.
    pub fn answer(self, text: &[u8]) -> Vec<u8> {
        self.answer_in_pieces(text, text.len().max(1), Duration::ZERO)
    }

    /// What it prints for a text that arrives in pieces of a length, with a pause after each.
    pub fn answer_in_pieces(self, text: &[u8], length: usize, pause: Duration) -> Vec<u8> {
        answer_of(Command::new(self.path()), text, length, pause)
    }

    /// What it prints for a text under a limit, by the words that the shell's `ulimit` takes.
    pub fn answer_within(self, limit: &str, text: &[u8]) -> Vec<u8> {
        let mut shell = Command::new("sh");
        shell
            .args(["-c", &format!("ulimit {limit} && exec \"$0\"")])
            .arg(self.path());
        answer_of(shell, text, text.len().max(1), Duration::ZERO)
    }

    /// What it prints, and says on standard error, where its standard input is a directory, which
    /// cannot be read.
    pub fn on_a_directory(self) -> (Vec<u8>, String) {
        let directory = File::open(env!("CARGO_MANIFEST_DIR")).expect("a directory");
        let run = self.run(directory, Stdio::piped());
        (
            run.stdout,
            String::from_utf8_lossy(&run.stderr).into_owned(),
        )
    }

    /// What it says on standard error for an empty input where its standard output is a full device,
    /// which takes nothing.
    pub fn onto_a_full_device(self) -> String {
        let input = File::open("/dev/null").expect("an empty input");
        let full = File::options()
            .write(true)
            .open("/dev/full")
            .expect("a full device");
        let run = self.run(input, full);
        String::from_utf8_lossy(&run.stderr).into_owned()
    }

    fn run(self, input: File, output: impl Into<Stdio>) -> Output {
        Command::new(self.path())
            .stdin(input)
            .stdout(output)
            .output()
            .expect("the program ends")
    }

    fn path(self) -> PathBuf {
        let name = self.0;
        let path = Path::new(env!("CARGO_MANIFEST_DIR")).join(format!("../../target/bin/{name}"));
        assert!(
            path.exists(),
            "target/bin/{name} is not there: run `.ci/libraries {name}` first"
        );
        path
    }
}

fn answer_of(mut command: Command, text: &[u8], length: usize, pause: Duration) -> Vec<u8> {
    let mut child = command
        .stdin(Stdio::piped())
        .stdout(Stdio::piped())
        .stderr(Stdio::piped())
        .spawn()
        .expect("the program starts");
    let input = child.stdin.take().expect("a pipe");
    // a thread of its own feeds the program, so that neither waits for the other
    let output = thread::scope(|scope| {
        scope.spawn(move || feed(input, text, length, pause));
        child.wait_with_output()
    })
    .expect("the program ends");
    let said = String::from_utf8_lossy(&output.stderr);
    assert!(output.status.success(), "{}, {said}", output.status);
    assert_eq!(said, "");
    output.stdout
}

/// Writes the text and closes the pipe. The program reads no more than it needs to know that a text
/// is too long, so it may be gone before the end.
fn feed(mut input: ChildStdin, text: &[u8], length: usize, pause: Duration) {
    for piece in text.chunks(length) {
        match input.write_all(piece).and_then(|()| input.flush()) {
            Ok(()) => thread::sleep(pause),
            Err(error) if error.kind() == ErrorKind::BrokenPipe => return,
            Err(error) => panic!("the program is not fed: {error}"),
        }
    }
}

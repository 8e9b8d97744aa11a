//! Helpers shared by the tests.
#![allow(dead_code)]

/// The worked example of "The program".
pub const EXAMPLE: &str = "010101000000000c\n\
    0301000112000008010000010000\n\
    0301010112000005010000010000\n\
    070200\n";

/// What the program prints for it.
pub const EXAMPLE_ANSWER: &str = "8000000009\n8100010009\n";

/// A text of frames, spaces left out, each line closed by LF.
pub fn frames(frames: &[&str]) -> String {
    let line = |frame: &&str| frame.replace(' ', "") + "\n";
    frames.iter().map(line).collect()
}

/// The readable text of a rule file that is accepted.
pub fn explain(rules: &str) -> String {
    rulefile::explain(rules.as_bytes()).unwrap_or_else(|refusal| panic!("{refusal}{rules}"))
}

/// The statements of it, without the comments above them.
pub fn statements(rules: &str) -> String {
    let text = explain(rules);
    let lines = text.lines().filter(|line| !line.starts_with("--"));
    lines.map(|line| format!("{line}\n")).collect()
}

/// The frames of a readable text.
pub fn assemble(readable: &str) -> String {
    match rulefile::assemble(readable.as_bytes()) {
        Ok(assembled) => String::from_utf8(assembled.frames).expect("digits"),
        Err(fault) => panic!("{fault}\n{readable}"),
    }
}

/// What is wrong with a readable text.
pub fn fault(readable: &str) -> String {
    match rulefile::assemble(readable.as_bytes()) {
        Ok(_) => panic!("assembled:\n{readable}"),
        Err(fault) => fault.to_string(),
    }
}

/// The readable text of a rule file, which gives its bytes back, and no refusal.
pub fn round_trip(rules: &[u8], name: &str) -> String {
    let readable = rulefile::explain(rules).unwrap_or_else(|refusal| panic!("{name}: {refusal}"));
    match rulefile::assemble(readable.as_bytes()) {
        Ok(back) => {
            assert!(back.frames == rules, "{name}:\n{readable}");
            assert_eq!(back.refusal, None, "{name}:\n{readable}");
        }
        Err(fault) => panic!("{name}: {fault}\n{readable}"),
    }
    readable
}

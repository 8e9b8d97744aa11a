//! A reader's tool for rule files: frames to readable text and back, and an answer as tables.
//!
//! It is a convenience and proves nothing: it rests on the reference reader of `compare/reference`
//! and not on the proved library. Names such as `t0`, `v2`, `c1` are the numbers of the format.

#![forbid(unsafe_code)]
#![warn(missing_docs)]

pub mod answer;
mod cursor;
mod express;
pub mod parse;
pub mod refusal;
mod scope;
mod token;
pub mod write;

use reference::text;
use std::fmt;

/// What is wrong with a readable text, and on which of its lines.
#[derive(Clone, Debug, PartialEq, Eq)]
pub struct Fault {
    /// The line, from 1.
    pub line: usize,
    /// What is wrong there.
    pub what: String,
}

impl fmt::Display for Fault {
    fn fmt(&self, out: &mut fmt::Formatter<'_>) -> fmt::Result {
        write!(out, "line {}: {}", self.line, self.what)
    }
}

/// The frames of a readable text.
#[derive(Clone, Debug, PartialEq, Eq)]
pub struct Assembled {
    /// The rule file, lines of hexadecimal.
    pub frames: Vec<u8>,
    /// The refusal that the frames would meet, in words.
    pub refusal: Option<String>,
}

/// A rule file as readable text, or the refusal that it meets, in words.
pub fn explain(rules: &[u8]) -> Result<String, String> {
    match reference::read(rules) {
        Ok(file) => Ok(write::file(&file)),
        Err(refusal) => Err(refusal::of_rules(rules, refusal)),
    }
}

/// The frames of a readable text, or what is wrong with it.
pub fn assemble(readable: &[u8]) -> Result<Assembled, Fault> {
    let readable = utf8(readable)?;
    let parsed = parse::parse(readable)?;
    let frames = text::write_syntax(&parsed.syntax);
    let refusal = reference::read(&frames).err();
    let refusal = refusal.map(|refusal| refusal::of_readable(readable, &parsed.lines, refusal));
    Ok(Assembled { frames, refusal })
}

/// The text of bytes, or the line of the first that are none.
fn utf8(bytes: &[u8]) -> Result<&str, Fault> {
    std::str::from_utf8(bytes).map_err(|error| {
        let before = &bytes[..error.valid_up_to()];
        Fault {
            line: 1 + before.iter().filter(|&&byte| byte == b'\n').count(),
            what: "these bytes are no UTF-8 text".to_owned(),
        }
    })
}

//! The text of a rule file: lines of hexadecimal to frames of bytes and back. Refusals 1 and 2.

use crate::layout;
use crate::syntax::{File, Refusal, Syntax};

/// "The file has 1 to 8,192 bytes."
pub const TEXT_BYTES: usize = 8192;
/// "1 to 120 frame bytes a line."
pub const FRAME_BYTES: usize = 120;

const LF: u8 = b'\n';

/// The frames of a text, one for each line, or refusal 1 or 2.
///
/// "1, empty or over 8,192 bytes. 2 (line), digits, pairs, length or LF wrong, the first such
/// line": 2 is looked for over the whole text before any frame is judged, and a text that ends
/// without LF has a wrong last line.
pub fn frames(text: &[u8]) -> Result<Vec<Vec<u8>>, Refusal> {
    if text.is_empty() || text.len() > TEXT_BYTES {
        return Err(Refusal { number: 1, line: 0 });
    }
    let mut frames = Vec::new();
    let mut rest = text;
    while !rest.is_empty() {
        let line = frames.len() as u16 + 1;
        let wrong = Refusal { number: 2, line };
        let end = rest.iter().position(|&byte| byte == LF).ok_or(wrong)?;
        frames.push(frame(&rest[..end]).ok_or(wrong)?);
        rest = &rest[end + 1..];
    }
    Ok(frames)
}

/// The bytes of one line without its LF.
fn frame(line: &[u8]) -> Option<Vec<u8>> {
    if line.is_empty() || line.len() % 2 == 1 || line.len() > 2 * FRAME_BYTES {
        return None;
    }
    line.chunks(2)
        .map(|pair| Some(digit(pair[0])? << 4 | digit(pair[1])?))
        .collect()
}

/// "digits 0-9 and a-f": capital letters are wrong.
fn digit(byte: u8) -> Option<u8> {
    match byte {
        b'0'..=b'9' => Some(byte - b'0'),
        b'a'..=b'f' => Some(byte - b'a' + 10),
        _ => None,
    }
}

/// One frame as a line, its LF included.
pub fn line(frame: &[u8]) -> Vec<u8> {
    let digits = b"0123456789abcdef";
    let mut line: Vec<u8> = frame
        .iter()
        .flat_map(|&byte| {
            [
                digits[usize::from(byte >> 4)],
                digits[usize::from(byte & 15)],
            ]
        })
        .collect();
    line.push(LF);
    line
}

/// Frames as a text.
pub fn lines<Frame: AsRef<[u8]>>(frames: &[Frame]) -> Vec<u8> {
    frames
        .iter()
        .flat_map(|frame| line(frame.as_ref()))
        .collect()
}

/// The text of any syntax, also of one that breaks the rules.
pub fn write_syntax(syntax: &Syntax) -> Vec<u8> {
    lines(&layout::frames(syntax))
}

/// The text of a file. Reading it gives the file back.
pub fn write(file: &File) -> Vec<u8> {
    write_syntax(&file.syntax)
}

//! Refusals in words: the offending line, and the sentence in English and in French.

use reference::sentence::both;
use reference::Refusal;

/// As many characters of an offending line are shown.
const SHOWN: usize = 240;

/// The refusal of a rule file, with the line of hexadecimal.
pub fn of_rules(rules: &[u8], refusal: Refusal) -> String {
    let above = usize::from(refusal.line).checked_sub(1);
    let offending = above.and_then(|above| rules.split(|&byte| byte == b'\n').nth(above));
    shown(offending, refusal)
}

/// The refusal of a readable text, with the line on which the statement begins. `lines` has this
/// line for each frame.
pub fn of_readable(readable: &str, lines: &[usize], refusal: Refusal) -> String {
    let frame = usize::from(refusal.line).checked_sub(1);
    let line = frame.and_then(|frame| lines.get(frame)).copied();
    let offending = line.and_then(|line| readable.lines().nth(line.saturating_sub(1)));
    // a sentence names lines to 65,535; of a later one it is said without a line
    let line = line.and_then(|line| u16::try_from(line).ok()).unwrap_or(0);
    shown(offending.map(str::as_bytes), Refusal { line, ..refusal })
}

fn shown(offending: Option<&[u8]>, refusal: Refusal) -> String {
    let offending = offending.map(|line| format!("    {}\n", printable(line)));
    offending.unwrap_or_default() + &both(refusal)
}

/// A line that may hold any bytes, fit to be printed.
fn printable(line: &[u8]) -> String {
    let text = String::from_utf8_lossy(line);
    let mut printable: String = text
        .trim()
        .chars()
        .take(SHOWN)
        .map(|char| if char.is_control() { '\u{fffd}' } else { char })
        .collect();
    if text.trim().chars().count() > SHOWN {
        printable.push_str(" ...");
    }
    printable
}

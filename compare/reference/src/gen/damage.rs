//! Damaged texts. Not every damage leads to a refusal: some land on a limit and some on another
//! accepted file.

use super::exists::{wrong, Way};
use super::spoil::spoil;
use super::Rng;
use crate::check;
use crate::layout::{self, Field};
use crate::syntax::{FOREIGN_KEYS, RELATIONS};
use crate::text::{self, FRAME_BYTES, TEXT_BYTES};

/// One way of damaging a text.
#[derive(Clone, Copy, Debug, PartialEq, Eq)]
pub enum Kind {
    /// One byte of the text is changed.
    TextByte,
    /// One byte of a frame is changed.
    FrameByte,
    /// The text is cut off.
    CutText,
    /// A frame is cut off.
    CutFrame,
    /// A frame has bytes too many.
    Surplus,
    /// A byte is put into a frame.
    Insert,
    /// A byte is taken out of a frame.
    Delete,
    /// Two frames change places.
    Swap,
    /// A frame stands twice.
    Duplicate,
    /// A frame is left out.
    Remove,
    /// A field is at a limit or just past it.
    Limit,
    /// There are 16 or 17 relations.
    Relations,
    /// There are 16 or 17 foreign keys.
    Keys,
    /// Digits are capital letters.
    Capitals,
    /// There are CRs.
    Returns,
    /// The last LF is missing.
    NoLastLf,
    /// There is an empty line.
    EmptyLine,
    /// A line has 120 or 121 bytes.
    LongLine,
    /// The text has 8,192 or 8,193 bytes.
    LongText,
    /// The bytes are random, or random frames of digits.
    Random,
    /// A rule on whole frames or on the file is broken or just kept.
    Spoil,
    /// An exists goes wrong.
    Exists(Way),
}

/// All kinds, each with its weight in [`damage`].
pub const KINDS: [(usize, Kind); 35] = [
    (6, Kind::TextByte),
    (10, Kind::FrameByte),
    (3, Kind::CutText),
    (5, Kind::CutFrame),
    (3, Kind::Surplus),
    (3, Kind::Insert),
    (3, Kind::Delete),
    (3, Kind::Swap),
    (2, Kind::Duplicate),
    (3, Kind::Remove),
    (20, Kind::Limit),
    (3, Kind::Relations),
    (3, Kind::Keys),
    (1, Kind::Capitals),
    (1, Kind::Returns),
    (1, Kind::NoLastLf),
    (1, Kind::EmptyLine),
    (3, Kind::LongLine),
    (2, Kind::LongText),
    (2, Kind::Random),
    (28, Kind::Spoil),
    (1, Kind::Exists(Way::Token)),
    (1, Kind::Exists(Way::Relation)),
    (1, Kind::Exists(Way::Inside)),
    (1, Kind::Exists(Way::Cut)),
    (1, Kind::Exists(Way::Seventh)),
    (1, Kind::Exists(Way::SeventhCut)),
    (1, Kind::Exists(Way::SeventhLater)),
    (1, Kind::Exists(Way::Later)),
    (1, Kind::Exists(Way::Closed)),
    (1, Kind::Exists(Way::Having)),
    (1, Kind::Exists(Way::Select)),
    (1, Kind::Exists(Way::Argument)),
    (1, Kind::Exists(Way::Aggregate)),
    (1, Kind::Exists(Way::Range)),
];

/// A text damaged once, or at times twice or thrice, so that refusals compete for being first.
pub fn damage(text: &[u8], seed: u64) -> Vec<u8> {
    let mut rng = Rng::new(seed);
    let times = rng.weighted(&[(75, 1), (20, 2), (5, 3)]);
    let mut damaged = text.to_vec();
    for _ in 0..times {
        let kind = rng.weighted(&KINDS);
        damaged = apply(&mut rng, &damaged, kind);
    }
    damaged
}

/// A text damaged once in a given way.
pub fn damage_of_kind(text: &[u8], kind: Kind, seed: u64) -> Vec<u8> {
    apply(&mut Rng::new(seed), text, kind)
}

/// Every text with one byte changed.
pub fn every_byte_change(text: &[u8]) -> impl Iterator<Item = Vec<u8>> + '_ {
    (0..text.len()).flat_map(move |at| {
        (1..=255u8).map(move |change| {
            let mut changed = text.to_vec();
            changed[at] ^= change;
            changed
        })
    })
}

/// Every text of an accepted file's frames with one field at a limit or just past it.
pub fn every_limit(text: &[u8]) -> Vec<Vec<u8>> {
    let Ok(file) = check::read(text) else {
        return Vec::new();
    };
    let frames = layout::fields(&file.syntax);
    let mut texts = Vec::new();
    for at in 0..frames.len() {
        for field in 0..frames[at].len() {
            for value in near_limits(frames[at][field]) {
                let mut changed = frames.clone();
                changed[at][field].value = value;
                let bytes: Vec<Vec<u8>> =
                    changed.iter().map(|frame| layout::bytes(frame)).collect();
                texts.push(text::lines(&bytes));
            }
        }
    }
    texts
}

fn near_limits(field: Field) -> [i32; 4] {
    [field.low - 1, field.low, field.high, field.high + 1]
}

fn apply(rng: &mut Rng, text: &[u8], kind: Kind) -> Vec<u8> {
    let mut lines = split_lines(text);
    let at = rng.below(lines.len().max(1));
    match kind {
        Kind::TextByte => return text_byte(rng, text),
        Kind::CutText => return text[..rng.below(text.len() + 1)].to_vec(),
        Kind::Limit => return limit(rng, text),
        Kind::Spoil => return spoiled(rng, text),
        Kind::Exists(way) => return wrong_exists(rng, text, way),
        Kind::LongText => return long_text(rng, text),
        Kind::Random => return random(rng),
        Kind::NoLastLf => return text.strip_suffix(b"\n").unwrap_or(text).to_vec(),
        _ if lines.is_empty() => return text.to_vec(),
        Kind::FrameByte => change_frame(&mut lines[at], |frame| {
            let byte = rng.below(frame.len());
            frame[byte] = any_byte(rng);
        }),
        Kind::CutFrame => change_frame(&mut lines[at], |frame| {
            frame.truncate(rng.below(frame.len() + 1));
        }),
        Kind::Surplus => change_frame(&mut lines[at], |frame| {
            for _ in 0..1 + rng.below(3) {
                frame.push(any_byte(rng));
            }
        }),
        Kind::Insert => change_frame(&mut lines[at], |frame| {
            frame.insert(rng.below(frame.len() + 1), any_byte(rng));
        }),
        Kind::Delete => change_frame(&mut lines[at], |frame| {
            frame.remove(rng.below(frame.len()));
        }),
        Kind::Swap => {
            let other = rng.below(lines.len());
            lines.swap(at, other);
        }
        Kind::Duplicate => {
            let copy = lines[at].clone();
            lines.insert(rng.below(lines.len() + 1), copy);
        }
        Kind::Remove => {
            lines.remove(at);
        }
        Kind::Relations => many(rng, &mut lines, RELATIONS, |kind| {
            kind == 1 || (3..7).contains(&kind)
        }),
        Kind::Keys => many_keys(rng, &mut lines),
        Kind::Capitals => {
            if rng.percent(50) {
                lines[at].make_ascii_uppercase();
            } else {
                lines
                    .iter_mut()
                    .for_each(|line| line.make_ascii_uppercase());
            }
        }
        Kind::Returns => {
            if rng.percent(50) {
                lines[at].push(b'\r');
            } else {
                lines.iter_mut().for_each(|line| line.push(b'\r'));
            }
        }
        Kind::EmptyLine => lines.insert(rng.below(lines.len() + 1), Vec::new()),
        Kind::LongLine => long_line(rng, &mut lines[at]),
    }
    join_lines(&lines)
}

/// The lines of a text without their LFs; an unclosed last one counts.
fn split_lines(text: &[u8]) -> Vec<Vec<u8>> {
    let closed = text.strip_suffix(b"\n").unwrap_or(text);
    if text.is_empty() {
        return Vec::new();
    }
    closed
        .split(|&byte| byte == b'\n')
        .map(<[u8]>::to_vec)
        .collect()
}

fn join_lines(lines: &[Vec<u8>]) -> Vec<u8> {
    let closed = |line: &Vec<u8>| line.iter().copied().chain([b'\n']).collect::<Vec<u8>>();
    lines.iter().flat_map(closed).collect()
}

/// Changes the bytes of a line that is a frame, and leaves any other.
fn change_frame(line: &mut Vec<u8>, change: impl FnOnce(&mut Vec<u8>)) {
    let mut closed = line.clone();
    closed.push(b'\n');
    if let Ok(mut frames) = text::frames(&closed) {
        change(&mut frames[0]);
        *line = text::line(&frames[0]);
        line.pop();
    }
}

/// A byte, most often one that is a token.
pub fn any_byte(rng: &mut Rng) -> u8 {
    if rng.percent(70) {
        rng.below(0x18) as u8
    } else {
        rng.bits() as u8
    }
}

fn text_byte(rng: &mut Rng, text: &[u8]) -> Vec<u8> {
    let mut changed = text.to_vec();
    if !changed.is_empty() {
        let at = rng.below(changed.len());
        let near = *rng.pick(b"0123456789abcdefABFGg/: \n\n\r\t\0");
        changed[at] = if rng.percent(80) {
            near
        } else {
            rng.bits() as u8
        };
    }
    changed
}

/// A field at a limit or just past it, at times with the frame cut after it or within it.
fn limit(rng: &mut Rng, text: &[u8]) -> Vec<u8> {
    let Ok(file) = check::read(text) else {
        return text_byte(rng, text);
    };
    let mut frames = layout::fields(&file.syntax);
    let at = rng.below(frames.len());
    let field = rng.below(frames[at].len());
    let value = *rng.pick(&near_limits(frames[at][field]));
    frames[at][field].value = value;
    let before = layout::bytes(&frames[at][..field]).len();
    let mut bytes: Vec<Vec<u8>> = frames.iter().map(|frame| layout::bytes(frame)).collect();
    if rng.percent(15) {
        bytes[at].truncate(before + 1 + rng.below(2));
    }
    text::lines(&bytes)
}

/// A file spoilt in its syntax; any other text loses a byte.
fn spoiled(rng: &mut Rng, text: &[u8]) -> Vec<u8> {
    match check::read(text) {
        Ok(file) => text::write_syntax(&spoil(rng, &file.syntax)),
        Err(_) => text_byte(rng, text),
    }
}

/// The same by an exists.
fn wrong_exists(rng: &mut Rng, text: &[u8], way: Way) -> Vec<u8> {
    match check::read(text) {
        Ok(file) => wrong(rng, &file.syntax, way),
        Err(_) => text_byte(rng, text),
    }
}

fn kind_of(line: &[u8]) -> u8 {
    match line {
        [b'0', digit @ b'1'..=b'7', ..] => digit - b'0',
        _ => 0,
    }
}

/// Repeats frames of some kinds until there are as many as allowed, or one more.
fn many(rng: &mut Rng, lines: &mut Vec<Vec<u8>>, limit: usize, of: impl Fn(u8) -> bool) {
    let wanted = limit + rng.below(2);
    loop {
        let places: Vec<usize> = (0..lines.len())
            .filter(|&at| of(kind_of(&lines[at])))
            .collect();
        if places.is_empty() || places.len() >= wanted {
            break;
        }
        // Most often the last is repeated, so that the numbers of the others stay.
        let at = if rng.percent(80) {
            places[places.len() - 1]
        } else {
            *rng.pick(&places)
        };
        let copy = lines[at].clone();
        lines.insert(at + 1, copy);
    }
    if rng.percent(20) && wanted > limit {
        if let Some(last) = lines.iter().rposition(|line| of(kind_of(line))) {
            lines[last].truncate(2);
        }
    }
}

/// The same for foreign keys; a file without any is given a keyed table that refers to itself.
fn many_keys(rng: &mut Rng, lines: &mut Vec<Vec<u8>>) {
    if !lines.iter().any(|line| kind_of(line) == 2) {
        let tables = lines.iter().filter(|line| kind_of(line) == 1).count();
        if rng.percent(70) {
            if let Some(first) = lines.iter_mut().find(|line| kind_of(line) == 1) {
                change_frame(first, |frame| {
                    if frame.len() > 3 {
                        frame[3] = 1;
                    }
                });
            }
        }
        lines.insert(tables.min(lines.len()), b"020000010000".to_vec());
    }
    many(rng, lines, FOREIGN_KEYS, |kind| kind == 2);
}

/// A frame of 120 or 121 bytes: filled up by `not` before its where condition, which keeps or
/// turns its meaning, or by bytes at its end.
fn long_line(rng: &mut Rng, line: &mut Vec<u8>) {
    let wanted = FRAME_BYTES + rng.below(2);
    let view = matches!(kind_of(line), 3 | 4);
    let by_not = view && rng.percent(80);
    change_frame(line, |frame| {
        let from = frame.get(1).map_or(0, |&count| usize::from(count));
        let head = if frame[0] == 3 { 3 + from } else { 4 + from };
        while frame.len() < wanted {
            if by_not && head <= frame.len() {
                frame.insert(head, 0x14);
            } else {
                frame.push(any_byte(rng));
            }
        }
    });
}

/// A text of exactly 8,192 or 8,193 bytes, by lines put before or after the others.
fn long_text(rng: &mut Rng, text: &[u8]) -> Vec<u8> {
    let wanted = TEXT_BYTES + rng.below(2);
    let mut filling = Vec::new();
    while text.len() + filling.len() < wanted {
        let left = wanted - text.len() - filling.len();
        let kind = *rng.pick(&[1, 3, 7]);
        let mut line = text::line(&vec![kind; filling_bytes(left)]);
        line.truncate(left);
        filling.extend(line);
    }
    if rng.percent(50) {
        filling.extend(text);
        filling
    } else {
        [text, &filling].concat()
    }
}

/// The bytes of the next filling frame. A line of n bytes takes 2n + 1 of the text, so the last
/// lines are chosen to come out even, except where 2 or 4 are left.
fn filling_bytes(left: usize) -> usize {
    let longest = 2 * FRAME_BYTES + 1;
    let length = if left % 2 == 1 && left <= longest {
        left
    } else {
        longest.min(left.saturating_sub(if left % 2 == 1 { 6 } else { 3 }))
    };
    (length / 2).max(1)
}

/// Random bytes, or random frames that begin with known kinds.
fn random(rng: &mut Rng) -> Vec<u8> {
    if rng.percent(30) {
        let length = rng.below(400);
        return (0..length).map(|_| rng.bits() as u8).collect();
    }
    let frames: Vec<Vec<u8>> = (0..1 + rng.below(6))
        .map(|_| {
            let length = rng.below(20);
            let mut frame = vec![rng.within(1, 7) as u8];
            frame.extend((0..length).map(|_| any_byte(rng)));
            frame
        })
        .collect();
    text::lines(&frames)
}

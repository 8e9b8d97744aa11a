//! A safe wrapper over the proved library.
//!
//! The functions of the library take plain numbers and slices as a pointer and a length, and have
//! no precondition: any text, any lengths, any start and any count are answered. Rust's slices have
//! all that C must see to: they are as long as they say, and lent buffers do not overlap. So the
//! wrapper has nothing to test. [`STACK`] bytes of stack must be left.

/// The work area of an accepted look has at least this many numbers.
pub const WORK: usize = 9216;

/// Bytes of stack, enough for any call: a thread with a stack of this size can make it.
pub const STACK: usize = 131_072;

/// Bytes, room enough for any sentence.
pub const SENTENCE: usize = 512;

/// A refusal of document 01: its number, and the line from 1, or 0 where none is said.
#[derive(Clone, Copy, Debug, PartialEq, Eq)]
pub struct Refusal {
    pub number: u8,
    pub line: u16,
}

/// A language of the sentences, by its number.
#[derive(Clone, Copy, Debug, PartialEq, Eq)]
#[repr(u8)]
pub enum Language {
    English = 0,
    French = 1,
}

impl Refusal {
    /// The refusal as one sentence.
    pub fn sentence(self, language: Language) -> String {
        let mut out = [0; SENTENCE];
        let length = sentence(self, language, &mut out);
        String::from_utf8(out[..length].to_vec()).expect("sentences are UTF-8")
    }
}

/// What a look answers.
#[derive(Clone, Copy, Debug, PartialEq, Eq)]
pub enum Answer {
    /// "case k": the instance buffer begins with its cells.
    Case(u64),
    /// "no case" from the start on.
    NoCase,
    /// "spent", with the next start; no candidate before it, from the start on, is a case.
    Spent(u64),
    /// One of the refusals 1 to 13; no buffer has changed.
    Refused(Refusal),
}

// The numbers of the answers, as in include/sakthveim.h.
const SPENT: u8 = 0x00;
const CASE: u8 = 0x80;
const NO_CASE: u8 = 0x82;
const REFUSED: u8 = 0x8f;

extern "C" {
    fn sakthveim_check(text: *const u8, text_length: usize) -> u32;
    fn sakthveim_look(
        text: *const u8,
        text_length: usize,
        start: u64,
        count: u64,
        work: *mut i32,
        work_length: usize,
        instance: *mut i16,
        instance_length: usize,
    ) -> u64;
    fn sakthveim_sentence(
        number: u8,
        line: u16,
        language: u8,
        out: *mut u8,
        out_length: usize,
    ) -> usize;
}

/// The refusal in what a refused check or look returns: the line in the lowest 16 bits, and the
/// number above them.
fn refusal(answer: u64) -> Refusal {
    Refusal {
        number: (answer >> 16) as u8,
        line: answer as u16,
    }
}

/// Whether a text is a rule file that meets none of the refusals 1 to 10.
pub fn check(text: &[u8]) -> Result<(), Refusal> {
    // The library reads `text_length` bytes from `text` and keeps nothing.
    match unsafe { sakthveim_check(text.as_ptr(), text.len()) } {
        0 => Ok(()),
        answer => Err(refusal(answer.into())),
    }
}

/// A look: the smallest case k with start ≤ k < min(start + count, N), N being the number of
/// candidates of the rule file.
///
/// `work` has at least [`WORK`] numbers, of any contents, and is all zero after an accepted look.
/// `instance` has at least as many numbers as the tables have cells; only a case changes it, and
/// only where its cells stand. Other lengths are refused, and a refused look changes no buffer.
pub fn look(text: &[u8], start: u64, count: u64, work: &mut [i32], instance: &mut [i16]) -> Answer {
    // The library reads the text, writes within the two buffers, and keeps nothing.
    let answer = unsafe {
        sakthveim_look(
            text.as_ptr(),
            text.len(),
            start,
            count,
            work.as_mut_ptr(),
            work.len(),
            instance.as_mut_ptr(),
            instance.len(),
        )
    };
    let value = answer & ((1 << 56) - 1);
    match (answer >> 56) as u8 {
        SPENT => Answer::Spent(value),
        CASE => Answer::Case(value),
        NO_CASE => Answer::NoCase,
        REFUSED => Answer::Refused(refusal(value)),
        other => unreachable!("answer {other:#x}"),
    }
}

/// A refusal as one sentence in UTF-8, at the front of `out`: its length in bytes. The bytes behind
/// it are as they were. 0 where `out` has no room for it; then no byte changes, and [`SENTENCE`]
/// bytes are enough for any.
pub fn sentence(refusal: Refusal, language: Language, out: &mut [u8]) -> usize {
    // The library writes within the buffer and keeps nothing.
    unsafe {
        sakthveim_sentence(
            refusal.number,
            refusal.line,
            language as u8,
            out.as_mut_ptr(),
            out.len(),
        )
    }
}

//! A plain reference for the rule file: reading and refusing it, the meaning of its views, its
//! cases, its candidates, a look at them, the program's output, and refusals as sentences.
//!
//! Every module is written from the documents of exact rules; a comment that settles a choice
//! quotes the sentence it rests on. Everything here is plain, except [`search`], which is the same
//! walk written for speed.

#![forbid(unsafe_code)]
#![warn(missing_docs)]

pub mod bench;
pub mod candidates;
pub mod cases;
pub mod check;
pub mod eval;
pub mod frame;
pub mod gen;
pub mod layout;
pub mod look;
pub mod range;
pub mod report;
pub mod search;
pub mod sentence;
pub mod syntax;
pub mod text;

pub use check::read;
pub use look::{look, plain_look, Answer};
pub use range::Range;
pub use report::report;
pub use syntax::{File, Refusal, Syntax};
pub use text::write;

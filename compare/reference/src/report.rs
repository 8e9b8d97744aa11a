//! "The program": its output for a text.

use crate::candidates;
use crate::check;
use crate::look::WORK;
use crate::search::Search;
use crate::syntax::{Refusal, Syntax};
use crate::text;

/// The output of the program for a text: "It searches from 0 to the end."
pub fn report(text: &[u8]) -> Vec<u8> {
    let file = match check::read(text) {
        Ok(file) => file,
        Err(refusal) => return text::lines(&[refusal_frame(refusal)]),
    };
    let mut work = vec![0; WORK];
    let found = Search::new(&file).first_case(0, file.candidates, &mut work);
    match found {
        Some(k) => text::lines(&case_frames(&file.syntax, k)),
        None => text::lines(&[[0x82]]),
    }
}

/// "80 and k in four bytes, then for each table 81, relation, rows, values row by row in two
/// bytes".
pub fn case_frames(syntax: &Syntax, k: u64) -> Vec<Vec<u8>> {
    let mut first = vec![0x80];
    first.extend((k as u32).to_be_bytes());
    let mut frames = vec![first];
    let cells = candidates::cells(syntax, k);
    let mut rest = cells.as_slice();
    for (number, table) in syntax.tables.iter().enumerate() {
        let (values, others) = rest.split_at(usize::from(table.rows) * table.columns.len());
        rest = others;
        let mut frame = vec![0x81, number as u8, table.rows];
        frame.extend(values.iter().flat_map(|value| value.to_be_bytes()));
        frames.push(frame);
    }
    frames
}

/// "8f, number, line in two bytes".
pub fn refusal_frame(refusal: Refusal) -> Vec<u8> {
    let [high, low] = refusal.line.to_be_bytes();
    vec![0x8f, refusal.number, high, low]
}

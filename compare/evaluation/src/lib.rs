//! One database of a rule file, evaluated by the proved library.

extern "C" {
    fn sakthveim_evaluate(
        text: *const u8,
        text_length: usize,
        counts: *mut u8,
        counts_length: usize,
        work: *mut i32,
        work_length: usize,
    ) -> u32;
}

/// The place in the work area of a relation's cell: 16 stretches of 576 numbers, each with 64 rows
/// of 8 columns and 64 numbers to spare.
pub fn position(relation: usize, row: usize, column: usize) -> usize {
    576 * relation + 8 * row + column
}

/// Evaluates the database whose tables stand in the work area, each cell at its [`position`].
///
/// A refused text gives its number in the upper 16 bits and its line in the lower, and no buffer
/// changes. Else the answer is 1 for a case and 0 for none, the work area has the rows of every
/// relation in order, and `counts` begins with their numbers. Fewer than 16 counts or 9,216 numbers
/// of work give refusal 11 of line 0, whatever the text.
pub fn evaluate(text: &[u8], counts: &mut [u8], work: &mut [i32]) -> u32 {
    // The library reads the text, writes within both buffers, and keeps nothing.
    unsafe {
        sakthveim_evaluate(
            text.as_ptr(),
            text.len(),
            counts.as_mut_ptr(),
            counts.len(),
            work.as_mut_ptr(),
            work.len(),
        )
    }
}

//! An answer of the program, frames 80, 81, 82 and 8f, as tables and SQL.

use crate::refusal;
use reference::syntax::{Syntax, Table};
use reference::{text, Refusal};

/// The answer to a rule file in words, or why it is not one.
pub fn explain(rules: &[u8], answer: &[u8]) -> Result<String, String> {
    let frames = text::frames(answer).map_err(|refusal| {
        let line = refusal.line;
        format!("the answer is not lines of hexadecimal (line {line})\n")
    })?;
    match frames.as_slice() {
        [no_case] if no_case == &[0x82] => Ok("no case\n".to_owned()),
        [refused] if refused[0] == 0x8f => refusal_of(rules, refused),
        [first, tables @ ..] if first[0] == 0x80 => case(rules, first, tables),
        _ => Err("an answer is 80 and frames 81, or 82 alone, or 8f alone\n".to_owned()),
    }
}

/// "8f, number, line in two bytes".
fn refusal_of(rules: &[u8], frame: &[u8]) -> Result<String, String> {
    let [_, number, high, low] = *frame else {
        return Err("frame 8f has four bytes\n".to_owned());
    };
    let line = u16::from_be_bytes([high, low]);
    Ok(refusal::of_rules(rules, Refusal { number, line }))
}

/// "80 and k in four bytes, then for each table 81, relation, rows, values".
fn case(rules: &[u8], first: &[u8], frames: &[Vec<u8>]) -> Result<String, String> {
    let k: [u8; 4] = first[1..]
        .try_into()
        .map_err(|_| "frame 80 has five bytes\n".to_owned())?;
    let file = reference::read(rules).map_err(|refusal| {
        let refused = refusal::of_rules(rules, refusal);
        format!("the answer is a case, but the rule file is not accepted\n{refused}")
    })?;
    let tables = tables(&file.syntax, frames)?;
    Ok(format!("case {}\n{tables}", u32::from_be_bytes(k)))
}

fn tables(syntax: &Syntax, frames: &[Vec<u8>]) -> Result<String, String> {
    if frames.len() != syntax.tables.len() {
        let (given, due) = (frames.len(), syntax.tables.len());
        return Err(format!("the answer has {given} tables, the file {due}\n"));
    }
    let numbered = syntax.tables.iter().zip(frames).enumerate();
    numbered
        .map(|(number, (table, frame))| {
            let rows = rows(number, table, frame)
                .ok_or_else(|| format!("frame 81 of the answer does not fit table t{number}\n"))?;
            Ok(shown(number, table, &rows))
        })
        .collect()
}

/// The rows of "81, relation, rows, values row by row in two bytes", if they fit the table.
fn rows(number: usize, table: &Table, frame: &[u8]) -> Option<Vec<Vec<i16>>> {
    let values = frame.strip_prefix(&[0x81, number as u8, table.rows])?;
    if values.len() != 2 * usize::from(table.rows) * table.columns.len() {
        return None;
    }
    let row = |bytes: &[u8]| {
        let pairs = bytes.chunks(2);
        pairs.map(|it| i16::from_be_bytes([it[0], it[1]])).collect()
    };
    Some(values.chunks(2 * table.columns.len()).map(row).collect())
}

fn shown(number: usize, table: &Table, rows: &[Vec<i16>]) -> String {
    let names: Vec<String> = (0..table.columns.len())
        .map(|it| format!("c{it}"))
        .collect();
    if rows.is_empty() {
        return format!("\nt{number} ({}): no rows\n", names.join(", "));
    }
    let inserts = rows.iter().map(|row| insert(number, &names, row));
    let inserts: String = inserts.collect();
    format!("\nt{number}\n{}\n{inserts}", grid(names, rows))
}

fn insert(number: usize, names: &[String], row: &[i16]) -> String {
    let values: Vec<String> = row.iter().map(i16::to_string).collect();
    let (names, values) = (names.join(", "), values.join(", "));
    format!("INSERT INTO t{number} ({names}) VALUES ({values});\n")
}

/// Columns as wide as their widest cell, numbers to the right.
fn grid(names: Vec<String>, rows: &[Vec<i16>]) -> String {
    let texts = |row: &Vec<i16>| row.iter().map(i16::to_string).collect();
    let mut lines: Vec<Vec<String>> = rows.iter().map(texts).collect();
    lines.insert(0, names);
    let widths: Vec<usize> = (0..lines[0].len())
        .map(|column| lines.iter().map(|line| line[column].len()).max())
        .map(Option::unwrap_or_default)
        .collect();
    let rule = widths.iter().map(|width| "-".repeat(*width)).collect();
    lines.insert(1, rule);
    lines.iter().map(|line| padded(line, &widths)).collect()
}

fn padded(line: &[String], widths: &[usize]) -> String {
    let cells = line.iter().zip(widths);
    let cells: Vec<String> = cells
        .map(|(cell, width)| format!("{cell:>width$}"))
        .collect();
    format!("    {}\n", cells.join("  "))
}

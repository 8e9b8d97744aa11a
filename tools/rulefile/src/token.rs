//! The words, numbers and symbols of a readable text.

use crate::Fault;

/// One of them.
#[derive(Clone, Debug, PartialEq, Eq)]
pub enum Token {
    /// A keyword or name, as it was written.
    Word(String),
    /// A number without its sign.
    Number(u32),
    /// One of [`SYMBOLS`].
    Symbol(&'static str),
}

/// A token and its line.
#[derive(Clone, Debug, PartialEq, Eq)]
pub struct Placed {
    /// The token.
    pub token: Token,
    /// Its line, from 1.
    pub line: usize,
}

/// A symbol comes before the symbols that it begins with.
const SYMBOLS: [&str; 12] = ["<=", "..", "(", ")", ",", ";", ".", "+", "-", "*", "=", "<"];

/// Symbols of SQL that the format has no token for, and what to write.
const STRANGE: [(&str, &str); 6] = [
    ("<>", "write NOT (x = y)"),
    ("!=", "write NOT (x = y)"),
    ("==", "write ="),
    (">=", "swap the sides and write <="),
    (">", "swap the sides and write <"),
    ("/", "the format has no division"),
];

/// The tokens of a text, comments and white space left out.
pub fn tokens(text: &str) -> Result<Vec<Placed>, Fault> {
    let mut tokens = Vec::new();
    for (above, whole) in text.lines().enumerate() {
        let line = above + 1;
        let mut rest = without_comment(whole).trim_start();
        while !rest.is_empty() {
            let (token, length) = first(rest).map_err(|what| Fault { line, what })?;
            tokens.push(Placed { token, line });
            rest = rest[length..].trim_start();
        }
    }
    Ok(tokens)
}

/// There are no strings, so `--` begins a comment wherever it stands.
fn without_comment(line: &str) -> &str {
    line.split_once("--").map_or(line, |(before, _)| before)
}

/// The first token of a text that begins with one, and its length.
fn first(text: &str) -> Result<(Token, usize), String> {
    let alike = |char: char| char.is_ascii_alphanumeric() || char == '_';
    let length = text.find(|char| !alike(char)).unwrap_or(text.len());
    match text[..length].chars().next() {
        None => symbol(text),
        Some('0'..='9') => Ok((number(&text[..length])?, length)),
        Some(_) => Ok((Token::Word(text[..length].to_owned()), length)),
    }
}

fn number(digits: &str) -> Result<Token, String> {
    if !digits.bytes().all(|byte| byte.is_ascii_digit()) {
        return Err(format!("`{digits}` is neither a number nor a name"));
    }
    let number = digits.parse();
    number
        .map(Token::Number)
        .map_err(|_| format!("the number {digits} is too large"))
}

fn symbol(text: &str) -> Result<(Token, usize), String> {
    if let Some((strange, instead)) = STRANGE.iter().find(|it| text.starts_with(it.0)) {
        return Err(format!("`{strange}` is not used here: {instead}"));
    }
    let symbol = SYMBOLS.into_iter().find(|it| text.starts_with(it));
    symbol
        .map(|it| (Token::Symbol(it), it.len()))
        .ok_or_else(|| format!("unknown character {:?}", text.chars().next().unwrap_or(' ')))
}

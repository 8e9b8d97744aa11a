//! A place among the tokens of a text, and what can be taken from there.

use crate::token::{Placed, Token};
use crate::Fault;

/// Words that cannot name a from item.
const KEYWORDS: [&str; 33] = [
    "TABLE",
    "ROWS",
    "KEY",
    "FOREIGN",
    "REFERENCES",
    "VIEW",
    "AS",
    "SELECT",
    "FROM",
    "WHERE",
    "GROUP",
    "BY",
    "HAVING",
    "UNION",
    "INTERSECT",
    "GOAL",
    "POSITIVE",
    "NEGATIVE",
    "AND",
    "OR",
    "NOT",
    "EXISTS",
    "TRUE",
    "CASE",
    "WHEN",
    "THEN",
    "ELSE",
    "END",
    "ROUND",
    "COUNT",
    "SUM",
    "MIN",
    "MAX",
];

/// The place.
pub struct Cursor<'a> {
    tokens: &'a [Placed],
    /// How many tokens have been taken.
    pub at: usize,
}

impl<'a> Cursor<'a> {
    /// The place before the first token.
    pub fn new(tokens: &'a [Placed]) -> Cursor<'a> {
        Cursor { tokens, at: 0 }
    }

    /// The next token.
    pub fn peek(&self) -> Option<&'a Token> {
        self.tokens.get(self.at).map(|placed| &placed.token)
    }

    /// The line of the next token, or of the last one.
    pub fn line(&self) -> usize {
        let next = self.tokens.get(self.at).or(self.tokens.last());
        next.map_or(1, |placed| placed.line)
    }

    /// A fault at the next token.
    pub fn fault<Thing>(&self, what: impl Into<String>) -> Result<Thing, Fault> {
        Err(Fault {
            line: self.line(),
            what: what.into(),
        })
    }

    /// The fault that something else is due.
    pub fn due<Thing>(&self, due: &str) -> Result<Thing, Fault> {
        let found = match self.peek() {
            Some(Token::Word(word)) => format!("`{word}`"),
            Some(Token::Number(number)) => format!("`{number}`"),
            Some(Token::Symbol(symbol)) => format!("`{symbol}`"),
            None => "the end of the text".to_owned(),
        };
        self.fault(format!("{due} is due, but there is {found}"))
    }

    /// Whether this keyword is next; it is not taken.
    pub fn sees(&self, keyword: &str) -> bool {
        matches!(self.peek(), Some(Token::Word(word)) if word.eq_ignore_ascii_case(keyword))
    }

    /// Takes a keyword, if it is next.
    pub fn keyword(&mut self, keyword: &str) -> bool {
        let next = self.sees(keyword);
        self.at += usize::from(next);
        next
    }

    /// Takes a symbol, if it is next.
    pub fn symbol(&mut self, symbol: &str) -> bool {
        let next = matches!(self.peek(), Some(Token::Symbol(it)) if *it == symbol);
        self.at += usize::from(next);
        next
    }

    /// Takes `EXISTS (FROM`, if it is next.
    pub fn exists(&mut self) -> bool {
        let at = self.at;
        let next = self.keyword("EXISTS") && self.symbol("(") && self.keyword("FROM");
        if !next {
            self.at = at;
        }
        next
    }

    /// Takes a keyword that is due.
    pub fn need_keyword(&mut self, keyword: &str) -> Result<(), Fault> {
        if self.keyword(keyword) {
            Ok(())
        } else {
            self.due(keyword)
        }
    }

    /// Takes a symbol that is due.
    pub fn need_symbol(&mut self, symbol: &str) -> Result<(), Fault> {
        if self.symbol(symbol) {
            Ok(())
        } else {
            self.due(&format!("`{symbol}`"))
        }
    }

    /// Takes a number with or without a sign, within limits.
    pub fn number(&mut self, low: i64, high: i64) -> Result<i64, Fault> {
        let sign = if self.symbol("-") { -1 } else { 1 };
        let Some(Token::Number(size)) = self.peek() else {
            return self.due("a number");
        };
        let number = sign * i64::from(*size);
        if !(low..=high).contains(&number) {
            return self.fault(format!("{number} is not from {low} to {high}"));
        }
        self.at += 1;
        Ok(number)
    }

    /// Takes a name of one of the letters and a number, such as `t0`.
    pub fn numbered(&mut self, letters: &str, due: &str) -> Result<(char, u8), Fault> {
        let named = match self.peek() {
            Some(Token::Word(word)) => letter_and_number(word),
            _ => None,
        };
        match named.filter(|name| letters.contains(name.0)) {
            Some(name) => {
                self.at += 1;
                Ok(name)
            }
            None => self.due(due),
        }
    }

    /// Takes a word that is no keyword, in small letters.
    pub fn free_word(&mut self, due: &str) -> Result<String, Fault> {
        match self.peek() {
            Some(Token::Word(word)) if !is_keyword(word) => {
                self.at += 1;
                Ok(word.to_ascii_lowercase())
            }
            _ => self.due(due),
        }
    }

    /// Takes things with commas between them, at most so many.
    pub fn list<Thing>(
        &mut self,
        most: usize,
        what: &str,
        mut thing: impl FnMut(&mut Self) -> Result<Thing, Fault>,
    ) -> Result<Vec<Thing>, Fault> {
        let mut things = vec![thing(self)?];
        while self.symbol(",") {
            if things.len() == most {
                return self.fault(format!("there are more than {most} {what}"));
            }
            things.push(thing(self)?);
        }
        Ok(things)
    }
}

/// `t0` as `t` and 0. Leading zeros are wrong, so that a relation has one name.
fn letter_and_number(word: &str) -> Option<(char, u8)> {
    let letter = word.chars().next()?.to_ascii_lowercase();
    let digits = word.get(1..)?;
    let number: u8 = digits.parse().ok()?;
    (number.to_string() == digits).then_some((letter, number))
}

fn is_keyword(word: &str) -> bool {
    KEYWORDS.iter().any(|it| it.eq_ignore_ascii_case(word))
}

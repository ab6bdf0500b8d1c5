//! The words, numbers and signs of one line, each with its column.

use crate::failure::Mistake;
use std::fmt;
use std::iter::Peekable;
use std::str::Chars;

pub const RESERVED: [&str; 5] = ["or", "not", "false", "marks", "figures"];

#[derive(Clone, Copy, Debug, PartialEq, Eq)]
pub enum Comparison {
    AtMost,
    Below,
    AtLeast,
    Above,
    Equal,
}

#[derive(Clone, Debug, PartialEq, Eq)]
pub enum Kind {
    Word(String),
    Number(i64),
    Plus,
    Minus,
    Comparison(Comparison),
    End,
}

impl fmt::Display for Kind {
    fn fmt(&self, out: &mut fmt::Formatter) -> fmt::Result {
        match self {
            Kind::Word(word) => write!(out, "'{word}'"),
            Kind::Number(number) => write!(out, "'{number}'"),
            Kind::Plus => out.write_str("'+'"),
            Kind::Minus => out.write_str("'-'"),
            Kind::Comparison(Comparison::AtMost) => out.write_str("'<='"),
            Kind::Comparison(Comparison::Below) => out.write_str("'<'"),
            Kind::Comparison(Comparison::AtLeast) => out.write_str("'>='"),
            Kind::Comparison(Comparison::Above) => out.write_str("'>'"),
            Kind::Comparison(Comparison::Equal) => out.write_str("'='"),
            Kind::End => out.write_str("the end of the line"),
        }
    }
}

#[derive(Clone, Debug)]
pub struct Token {
    pub kind: Kind,
    pub column: usize,
}

/// The tokens of a line up to its comment; the last one is the end, right after the last other.
pub fn tokens(text: &str, line: usize) -> Result<Vec<Token>, Mistake> {
    let mut scanner = Scanner {
        rest: text.chars().peekable(),
        line,
        column: 1,
    };
    let mut found = Vec::new();
    let mut end = 1;
    while let Some(token) = scanner.token()? {
        found.push(token);
        end = scanner.column;
    }
    found.push(Token {
        kind: Kind::End,
        column: end,
    });
    Ok(found)
}

struct Scanner<'a> {
    rest: Peekable<Chars<'a>>,
    line: usize,
    column: usize,
}

impl Scanner<'_> {
    /// The next token, none at a comment or the line's end.
    fn token(&mut self) -> Result<Option<Token>, Mistake> {
        self.while_it(char::is_whitespace);
        let column = self.column;
        let kind = match self.rest.peek() {
            None | Some('#') => return Ok(None),
            Some(&first) => self.kind(first)?,
        };
        Ok(Some(Token { kind, column }))
    }

    fn kind(&mut self, first: char) -> Result<Kind, Mistake> {
        match first {
            '+' => Ok(self.sign(Kind::Plus)),
            '-' => Ok(self.sign(Kind::Minus)),
            '=' => Ok(self.sign(Kind::Comparison(Comparison::Equal))),
            '<' => Ok(self.comparison(Comparison::Below, Comparison::AtMost)),
            '>' => Ok(self.comparison(Comparison::Above, Comparison::AtLeast)),
            _ if first.is_ascii_digit() => self.number(),
            _ if first.is_alphabetic() => Ok(Kind::Word(self.while_it(in_name))),
            _ => Err(self.mistake(format!(
                "expected a name, a number or a sign, found {}",
                visible(first)
            ))),
        }
    }

    fn number(&mut self) -> Result<Kind, Mistake> {
        let mistake = self.mistake("expected a number within 64 bits".into());
        let digits = self.while_it(|c| c.is_ascii_digit());
        digits.parse().map(Kind::Number).map_err(|_| mistake)
    }

    fn sign(&mut self, kind: Kind) -> Kind {
        self.advance();
        kind
    }

    /// `<` or `>`, perhaps with `=` after it.
    fn comparison(&mut self, strict: Comparison, loose: Comparison) -> Kind {
        self.advance();
        if self.rest.peek() == Some(&'=') {
            return self.sign(Kind::Comparison(loose));
        }
        Kind::Comparison(strict)
    }

    fn while_it(&mut self, belongs: fn(char) -> bool) -> String {
        let mut taken = String::new();
        while let Some(&next) = self.rest.peek().filter(|&&next| belongs(next)) {
            taken.push(next);
            self.advance();
        }
        taken
    }

    fn advance(&mut self) {
        self.rest.next();
        self.column += 1;
    }

    fn mistake(&self, message: String) -> Mistake {
        Mistake {
            line: self.line,
            column: self.column,
            message,
        }
    }
}

fn in_name(c: char) -> bool {
    c.is_alphabetic() || c.is_ascii_digit() || c == '_'
}

/// A character between quotes, or its number if it would not be seen.
fn visible(character: char) -> String {
    match character.escape_debug().nth(1) {
        Some('u' | '0') => format!("U+{:04X}", character as u32),
        _ => format!("'{character}'"),
    }
}

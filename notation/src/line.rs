//! A line's tokens, taken from the front.

use crate::failure::Mistake;
use crate::token::{tokens, Comparison, Kind, Token, RESERVED};

pub struct Line {
    number: usize,
    tokens: Vec<Token>,
    at: usize,
}

impl Line {
    pub fn new(text: &str, number: usize) -> Result<Line, Mistake> {
        Ok(Line {
            number,
            tokens: tokens(text, number)?,
            at: 0,
        })
    }

    fn next(&self) -> &Kind {
        &self.tokens[self.at].kind
    }

    pub fn column(&self) -> usize {
        self.tokens[self.at].column
    }

    pub fn at_end(&self) -> bool {
        *self.next() == Kind::End
    }

    /// Takes the next token if it is this word.
    pub fn skip(&mut self, word: &str) -> bool {
        let found = matches!(self.next(), Kind::Word(next) if next == word);
        self.at += usize::from(found);
        found
    }

    /// The next token if it is a name; reserved words are none.
    pub fn peek_name(&self) -> Option<&str> {
        match self.next() {
            Kind::Word(word) if !RESERVED.contains(&word.as_str()) => Some(word),
            _ => None,
        }
    }

    /// Takes the next token if it is a name.
    pub fn name(&mut self) -> Option<String> {
        let name = self.peek_name()?.to_string();
        self.at += 1;
        Some(name)
    }

    pub fn number(&mut self) -> Option<i64> {
        let number = match self.next() {
            &Kind::Number(number) => number,
            _ => return None,
        };
        self.at += 1;
        Some(number)
    }

    /// Takes a sign; true for minus.
    pub fn sign(&mut self) -> Option<bool> {
        let minus = match self.next() {
            Kind::Plus => false,
            Kind::Minus => true,
            _ => return None,
        };
        self.at += 1;
        Some(minus)
    }

    /// The next token if it is a comparison.
    pub fn peek_comparison(&self) -> Option<Comparison> {
        match self.next() {
            &Kind::Comparison(comparison) => Some(comparison),
            _ => None,
        }
    }

    pub fn comparison(&mut self) -> Option<Comparison> {
        let comparison = self.peek_comparison()?;
        self.at += 1;
        Some(comparison)
    }

    /// A mistake at the next token: something else was expected.
    pub fn expected(&self, what: &str) -> Mistake {
        let message = format!("expected {what}, found {}", self.next());
        self.mistake(self.column(), message)
    }

    pub fn mistake(&self, column: usize, message: String) -> Mistake {
        Mistake {
            line: self.number,
            column,
            message,
        }
    }
}

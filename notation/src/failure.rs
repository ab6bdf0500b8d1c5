//! What can go wrong, in one line each.

use std::fmt;

pub const USAGE: &str = "usage: notation write FILE | read QUESTION [NAMES] | \
    sheet QUESTION SHEET [NAMES] | book QUESTION BOOK [NAMES] [LINES]";

/// A mistake in a notation file; line and column count from 1, columns in characters.
#[derive(Clone, Debug, PartialEq, Eq)]
pub struct Mistake {
    pub line: usize,
    pub column: usize,
    pub message: String,
}

impl Mistake {
    /// The mistake with the file it is in.
    pub fn of(&self, file: &str) -> String {
        format!("{file}:{}:{}: {}", self.line, self.column, self.message)
    }
}

/// Why the program ends without its output.
#[derive(Clone, Debug, PartialEq, Eq)]
pub enum Failure {
    Usage,
    Said(String),
}

impl Failure {
    /// The program's exit status.
    pub fn status(&self) -> u8 {
        match self {
            Failure::Usage => 2,
            Failure::Said(_) => 1,
        }
    }
}

impl fmt::Display for Failure {
    fn fmt(&self, out: &mut fmt::Formatter) -> fmt::Result {
        match self {
            Failure::Usage => out.write_str(USAGE),
            Failure::Said(message) => out.write_str(message),
        }
    }
}

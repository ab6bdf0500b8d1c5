//! The words of a source of Rattle, with the brackets that belong together. Comments and what is
//! said to the prover alone (`ghost use ..;`, `requires { .. }`, `ensures { .. }`) are left out.
//! What is not read is an error.

use crate::Trouble;

#[derive(PartialEq)]
pub enum Word {
    /// A name or a keyword.
    Name(String),
    /// A whole number, and the type that is written behind it.
    Number(i128, Option<String>),
    /// A byte in quotes.
    Byte,
    /// A byte string, by its length as it is written, which is no less than it has.
    Bytes(usize),
    /// A text in quotes, as in `extern "C"`.
    Text,
    /// A lifetime or a label.
    Lifetime,
    Sign(&'static str),
}

pub struct Token {
    pub word: Word,
    /// Where it stands in the text, and on which line.
    pub start: usize,
    pub end: usize,
    pub line: usize,
    /// For a bracket: the token that it belongs to.
    pub other: usize,
    /// The bracket that it stands in.
    pub within: Option<usize>,
}

/// Longer ones first. A shift to the right is two words, as two lists of types end by.
const SIGNS: [&str; 38] = [
    "..=", "::", "->", "=>", "..", "<<", "&&", "||", "==", "!=", "<=", ">=", "+=", "-=", "(", ")",
    "[", "]", "{", "}", "<", ">", ",", ";", ":", ".", "=", "+", "-", "*", "/", "%", "&", "|", "^",
    "!", "#", "?",
];

pub fn tokens(text: &str) -> Result<Vec<Token>, Trouble> {
    let mut reader = Reader {
        text,
        at: 0,
        line: 1,
    };
    let mut tokens = Vec::new();
    while reader.blank()? {
        let (start, line) = (reader.at, reader.line);
        let word = reader.word()?;
        let ghost = match &word {
            Word::Name(name) => reader.ghost(name)?,
            _ => false,
        };
        if !ghost {
            tokens.push(Token {
                word,
                start,
                end: reader.at,
                line,
                other: 0,
                within: None,
            });
        }
    }
    paired(&mut tokens)?;
    Ok(tokens)
}

/// Finds the bracket that belongs to each.
fn paired(tokens: &mut [Token]) -> Result<(), Trouble> {
    let mut open: Vec<usize> = Vec::new();
    for i in 0..tokens.len() {
        let opening = match tokens[i].word {
            Word::Sign(")") => "(",
            Word::Sign("]") => "[",
            Word::Sign("}") => "{",
            _ => "",
        };
        if !opening.is_empty() {
            match open.pop() {
                Some(first) if tokens[first].word == Word::Sign(opening) => {
                    tokens[i].other = first;
                    tokens[first].other = i;
                }
                _ => return Err(Trouble::at(tokens[i].line, "a bracket closes nothing")),
            }
        }
        tokens[i].within = open.last().copied();
        if let Word::Sign("(" | "[" | "{") = tokens[i].word {
            open.push(i);
        }
    }
    match open.last() {
        Some(&first) => Err(Trouble::at(tokens[first].line, "a bracket is not closed")),
        None => Ok(()),
    }
}

struct Reader<'a> {
    text: &'a str,
    at: usize,
    line: usize,
}

impl<'a> Reader<'a> {
    fn rest(&self) -> &'a str {
        &self.text[self.at..]
    }

    fn trouble(&self, what: &str) -> Trouble {
        Trouble::at(self.line, what)
    }

    /// Goes on by some bytes.
    fn pass(&mut self, bytes: usize) {
        self.line += self.rest()[..bytes].matches('\n').count();
        self.at += bytes;
    }

    /// Takes the text that this is true of.
    fn taken(&mut self, part: impl Fn(char) -> bool) -> &'a str {
        let rest = self.rest();
        let taken = &rest[..rest.find(|c| !part(c)).unwrap_or(rest.len())];
        self.pass(taken.len());
        taken
    }

    /// Goes behind the next such sign, and gives what stands before it.
    fn until(&mut self, end: char) -> Result<&'a str, Trouble> {
        let taken = self.taken(|c| c != end);
        match self.rest().is_empty() {
            true => Err(self.trouble("what is begun is not ended")),
            false => {
                self.pass(end.len_utf8());
                Ok(taken)
            }
        }
    }

    /// Goes to the next word, past blanks and comments, and says whether there is one.
    fn blank(&mut self) -> Result<bool, Trouble> {
        loop {
            self.taken(char::is_whitespace);
            if self.rest().starts_with("//") {
                self.taken(|c| c != '\n');
            } else if self.rest().starts_with("/*") {
                self.comment()?;
            } else {
                return Ok(!self.rest().is_empty());
            }
        }
    }

    /// A comment in slashes and stars, which may hold others.
    fn comment(&mut self) -> Result<(), Trouble> {
        let mut depth = 0;
        loop {
            let bytes = if self.rest().starts_with("/*") {
                depth += 1;
                2
            } else if self.rest().starts_with("*/") {
                depth -= 1;
                2
            } else {
                self.rest().chars().next().map_or(0, char::len_utf8)
            };
            self.pass(bytes);
            match (depth, bytes) {
                (0, _) => return Ok(()),
                (_, 0) => return Err(self.trouble("a comment is not closed")),
                _ => {}
            }
        }
    }

    /// Goes behind the bracket that closes one that is open, and gives what stands before it.
    fn clause(&mut self) -> Result<&'a str, Trouble> {
        let start = self.at;
        let mut depth = 1;
        while depth > 0 {
            self.taken(|c| c != '{' && c != '}');
            match self.rest().chars().next() {
                Some('{') => depth += 1,
                Some(_) => depth -= 1,
                None => return Err(self.trouble("what is begun is not ended")),
            }
            self.pass(1);
        }
        Ok(&self.text[start..self.at - 1])
    }

    /// Passes what a name begins that is said to the prover alone, and says whether it does. It ends
    /// with the first sign that can end it, a clause with the bracket that closes it. A comment or a
    /// text in it could hide where that is, and is not read.
    fn ghost(&mut self, name: &str) -> Result<bool, Trouble> {
        let (read, said) = match name {
            "ghost" => {
                let used = self.until(';')?;
                (used.split_whitespace().next() == Some("use"), used)
            }
            "requires" | "ensures" => {
                let label = self.until('{')?;
                (label.trim().chars().all(name_part), self.clause()?)
            }
            _ => return Ok(false),
        };
        match read
            && !["--", "//", "/*", "{-", "\"", "'{", "'}"]
                .iter()
                .any(|sign| said.contains(sign))
        {
            true => Ok(true),
            false => Err(self.trouble(&format!("{name} is not read"))),
        }
    }

    fn word(&mut self) -> Result<Word, Trouble> {
        let rest = self.rest();
        for (begin, quote) in [("\"", '"'), ("b\"", '"'), ("b'", '\'')] {
            if rest.starts_with(begin) {
                self.pass(begin.len());
                let length = self.quoted(quote)?;
                return Ok(match begin {
                    "\"" => Word::Text,
                    "b\"" => Word::Bytes(length),
                    _ => Word::Byte,
                });
            }
        }
        match rest.chars().next() {
            Some(c) if c.is_ascii_digit() => self.number(),
            Some(c) if name_part(c) => {
                let name = self.taken(name_part);
                match self.rest().starts_with(&['"', '\'', '#'][..]) && name.len() < 3 {
                    true => Err(self.trouble("a quote that is not read")),
                    false => Ok(Word::Name(name.to_string())),
                }
            }
            Some('\'') => {
                self.pass(1);
                let name = self.taken(name_part);
                match name.is_empty() || self.rest().starts_with('\'') {
                    true => Err(self.trouble("a quote that is not read")),
                    false => Ok(Word::Lifetime),
                }
            }
            _ => {
                let sign = SIGNS.iter().find(|sign| rest.starts_with(**sign));
                let sign = sign.ok_or_else(|| self.trouble("a sign that is not read"))?;
                self.pass(sign.len());
                Ok(Word::Sign(sign))
            }
        }
    }

    fn number(&mut self) -> Result<Word, Trouble> {
        let (radix, prefix) = match self.rest().get(..2) {
            Some("0x") => (16, 2),
            Some("0o") => (8, 2),
            Some("0b") => (2, 2),
            _ => (10, 0),
        };
        self.pass(prefix);
        let digits = self.taken(|c| c.is_digit(radix) || c == '_');
        let suffix = match self.taken(name_part) {
            "" => None,
            suffix => Some(suffix.to_string()),
        };
        match i128::from_str_radix(&digits.replace('_', ""), radix) {
            Ok(value) => Ok(Word::Number(value, suffix)),
            Err(_) => Err(self.trouble("a number that is not read")),
        }
    }

    /// Goes behind the closing quote; the bytes before it as they are written.
    fn quoted(&mut self, quote: char) -> Result<usize, Trouble> {
        let start = self.at;
        loop {
            self.taken(|c| c != quote && c != '\\');
            match self.rest().starts_with('\\') {
                true => self.pass(self.rest().char_indices().nth(2).map_or(1, |(at, _)| at)),
                false => break,
            }
        }
        self.until(quote)?;
        Ok(self.at - start - 1)
    }
}

fn name_part(c: char) -> bool {
    c == '_' || c.is_ascii_alphanumeric()
}

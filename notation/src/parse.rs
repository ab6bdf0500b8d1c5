//! A notation file: names, then clauses.

use crate::clause::clause;
use crate::failure::Mistake;
use crate::line::Line;
use crate::names::Names;
use crate::question::{Question, BYTES, CLAUSES, FIGURES, HEAD, LINKS, MARKS};

/// What a notation file says.
#[derive(Clone, Debug, PartialEq, Eq)]
pub struct Text {
    pub names: Names,
    pub question: Question,
}

/// Reads a notation file, or finds its first mistake. A byte order mark before it is passed over.
pub fn parse(text: &str) -> Result<Text, Mistake> {
    let text = text.strip_prefix('\u{feff}').unwrap_or(text);
    let mut parser = Parser::default();
    for (index, line) in text.lines().enumerate() {
        parser.line(Line::new(line, index + 1)?)?;
    }
    let names = parser.names;
    Ok(Text {
        question: Question {
            marks: names.marks.len(),
            figures: names.figures.len(),
            ..parser.question
        },
        names,
    })
}

/// The names and clauses so far; the question's counts are set at the end.
#[derive(Default)]
struct Parser {
    names: Names,
    question: Question,
    length: usize,
    links: usize,
    named_marks: bool,
    named_figures: bool,
}

impl Parser {
    fn line(&mut self, mut line: Line) -> Result<(), Mistake> {
        if line.at_end() {
            return Ok(());
        }
        let column = line.column();
        if line.skip("marks") {
            self.header(&line, column, "marks", self.named_marks)?;
            self.named_marks = true;
            self.names.marks = self.list(line, MARKS, "marks")?;
            return Ok(());
        }
        if line.skip("figures") {
            self.header(&line, column, "figures", self.named_figures)?;
            self.named_figures = true;
            self.names.figures = self.list(line, FIGURES, "figures")?;
            return Ok(());
        }
        self.clause(line, column)
    }

    /// Names are given once, before the clauses.
    fn header(&self, line: &Line, column: usize, word: &str, again: bool) -> Result<(), Mistake> {
        let rule = match (again, self.question.clauses.is_empty()) {
            (true, _) => "once",
            (false, false) => "before the first clause",
            (false, true) => return Ok(()),
        };
        Err(line.mistake(column, format!("expected '{word}' {rule}")))
    }

    /// New names up to the line's end, at most `limit`.
    fn list(&self, mut line: Line, limit: usize, what: &str) -> Result<Vec<String>, Mistake> {
        let mut list = Vec::new();
        while !line.at_end() {
            let column = line.column();
            let name = line.name().ok_or_else(|| line.expected("a name"))?;
            if self.names.meaning(&name).is_some() || list.contains(&name) {
                let message = format!("expected a new name, found '{name}' again");
                return Err(line.mistake(column, message));
            }
            if list.len() == limit {
                return Err(line.mistake(column, format!("expected at most {limit} {what}")));
            }
            list.push(name);
        }
        Ok(list)
    }

    fn clause(&mut self, mut line: Line, column: usize) -> Result<(), Mistake> {
        let clause = clause(&mut line, &self.names)?;
        self.length += clause.length(self.names.figures.len());
        self.links += clause.links();
        self.question.clauses.push(clause);
        match self.passed() {
            Some(limit) => Err(line.mistake(column, format!("expected at most {limit}"))),
            None => Ok(()),
        }
    }

    /// The limit that the clauses so far have passed.
    fn passed(&self) -> Option<String> {
        if self.question.clauses.len() > CLAUSES {
            return Some(format!("{CLAUSES} clauses"));
        }
        if HEAD + self.length > BYTES {
            return Some("32,768 bytes".into());
        }
        (self.links > LINKS).then(|| {
            format!(
                "{LINKS} links; a clause takes one for each condition after its first, or two if it \
                 has an '='"
            )
        })
    }
}

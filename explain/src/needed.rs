//! What a short book keeps of a book.

use jemuling::LINE_BYTES;
use notation::{Edition, Question};

/// Of a book with so many lines, how many its short book keeps and leaves out; and how many of the
/// edition's clauses the short book loads, and which.
pub fn needed(question: &Question, edition: Edition, lines: usize, short: &[u8]) -> String {
    let kept = short.len() / LINE_BYTES;
    let needed = match lines.saturating_sub(kept) {
        0 => format!("all {kept}"),
        others => format!("{kept} of {lines}; left out: {others} (--book shows all)"),
    };
    let (loaded, clauses) = (loaded(short), question.clauses_in(edition).len());
    let part = match loaded.len() {
        count if count == clauses => format!("all {clauses}"),
        count => format!("{count} of {clauses}: {}", listed(question, &loaded)),
    };
    format!("lines needed: {needed}\nclauses that play a part: {part}\n")
}

/// The clauses that a book loads, each once, in order.
fn loaded(book: &[u8]) -> Vec<usize> {
    let lines = book.chunks_exact(LINE_BYTES).filter(|line| line[0] == 0);
    let clause = |line: &[u8]| usize::from(u16::from_le_bytes([line[2], line[3]]));
    let mut clauses: Vec<usize> = lines.map(clause).collect();
    clauses.sort_unstable();
    clauses.dedup();
    clauses
}

/// `0, 2, 5 (edition 2)`.
fn listed(question: &Question, clauses: &[usize]) -> String {
    let number = |&clause: &usize| question.clause_number(clause);
    clauses.iter().map(number).collect::<Vec<_>>().join(", ")
}

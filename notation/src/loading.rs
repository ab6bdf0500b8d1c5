//! What a run did not load, worked out from the lines that it left: clauses that always hold, and
//! pieces that an earlier line covers.

use crate::book::{half, named, of_half, LINE};
use crate::question::{Clause, Condition, Edition, Literal, Question, Relation};
use crate::reading::Reading;

/// The pieces that an earlier line covers, and the clauses, or one reading of them, that always hold:
/// for both their count, and each on a line. Nothing of what a run did not come to. The book is the
/// used lines of that run, in the edition given.
pub fn explain_loading(question: &Question, edition: Edition, book: &[u8]) -> String {
    let mut lines = book.chunks_exact(LINE).take_while(|line| line[0] == 0);
    let mut next = lines.next();
    let mut held: Vec<(String, Piece)> = Vec::new();
    let (mut covered, mut dropped) = (Vec::new(), Vec::new());
    let clauses = question.clauses_in(edition);
    let numbered = clauses.iter().enumerate();
    for item in numbered.flat_map(|(number, clause)| items(question, number, clause)) {
        if held.last().map_or(false, |(_, piece)| piece.is_empty()) {
            break;
        }
        match item {
            Item::AlwaysTrue(name) => dropped.push(format!("{name}: always true\n")),
            Item::Piece(number, part, name, piece) => {
                let is_it = |line: &[u8]| half(line, 2) == number && half(line, 4) == part;
                if next.map_or(false, is_it) {
                    next = lines.next();
                    held.push((name, piece));
                } else if let Some(line) = held.iter().position(|(_, other)| other.covers(&piece)) {
                    let by = &held[line].0;
                    covered.push(format!("{name}: covered by line {line} ({by})\n"));
                }
            }
        }
    }
    listed("covered by an earlier line", &covered) + &listed("always true", &dropped)
}

fn listed(why: &str, lines: &[String]) -> String {
    match lines.len() {
        0 => String::new(),
        count => format!("not loaded, {why}: {count}\n{}", lines.concat()),
    }
}

/// What loading comes to: a clause, or one reading of it, that tidying drops, by its name; or a piece,
/// by the numbers of its clause and of itself, and by its name.
enum Item<'a> {
    AlwaysTrue(String),
    Piece(usize, usize, String, Piece<'a>),
}

/// What loading comes to of a clause, in order.
fn items<'a>(question: &Question, number: usize, clause: &'a Clause) -> Vec<Item<'a>> {
    let clause_name = question.clause_name(number);
    let readings = clause.readings();
    if readings.iter().all(|reading| reading.pieces() == 0) {
        return vec![Item::AlwaysTrue(clause_name)];
    }
    let mut items = Vec::new();
    let mut part = 0;
    for reading in readings {
        if reading.pieces() == 0 {
            let half = of_half(reading.half);
            items.push(Item::AlwaysTrue(format!("{clause_name}{half}")));
        }
        for piece in pieces(&clause.literals, reading) {
            let name = named(clause_name.clone(), clause, part);
            items.push(Item::Piece(number, part, name, piece));
            part += 1;
        }
    }
    items
}

/// A piece of a tidied reading.
struct Piece<'a> {
    /// The clause's own; links are not among them.
    literals: &'a [Literal],
    condition: Option<Condition>,
    has_link: bool,
}

/// The pieces of a reading of a clause with these literals, in the order in which they load; none of
/// one that always holds.
fn pieces(literals: &[Literal], reading: Reading) -> Vec<Piece<'_>> {
    let conditions = match reading.conditions {
        Some(conditions) if conditions.is_empty() => vec![None],
        Some(conditions) => conditions.into_iter().map(Some).collect(),
        None => Vec::new(),
    };
    let has_link = conditions.len() > 1;
    let piece = |(part, condition)| Piece {
        literals: if part == 0 { literals } else { &[] },
        condition,
        has_link,
    };
    conditions.into_iter().enumerate().map(piece).collect()
}

impl Piece<'_> {
    fn is_empty(&self) -> bool {
        self.literals.is_empty() && self.condition.is_none()
    }

    /// Whether it covers a later piece: each of its literals is there, and it has no condition, or
    /// the same coefficients with a bound that is smaller, or equal under a relation at least as
    /// strict. No other piece has a link of it in the same sign.
    fn covers(&self, later: &Piece) -> bool {
        let there = |literal| later.literals.contains(literal);
        let as_tight = match (&self.condition, &later.condition) {
            (None, _) => true,
            (Some(_), None) => false,
            (Some(one), Some(other)) => {
                let as_strict = one.relation == Relation::Below || one.relation == other.relation;
                one.coefficients == other.coefficients
                    && (one.bound < other.bound || one.bound == other.bound && as_strict)
            }
        };
        !self.has_link && self.literals.iter().all(there) && as_tight
    }
}

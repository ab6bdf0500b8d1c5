//! A clause as it is read: `>=` with all signs turned, and a clause with an `=` twice, first with
//! `<=` in its place, then with `>=`. Each reading is tidied by itself.

use crate::question::{Clause, Condition, Relation};

/// What stands for the `=` of a clause.
#[derive(Clone, Copy, Debug, PartialEq, Eq)]
pub enum Half {
    AtMost,
    AtLeast,
}

/// A reading of a clause, tidied.
pub struct Reading {
    /// None of a clause without an `=`.
    pub half: Option<Half>,
    /// The conditions that stay, with `<=` and `<` alone; none if the reading is dropped, since it
    /// always holds.
    pub conditions: Option<Vec<Condition>>,
}

impl Reading {
    fn of(clause: &Clause, half: Option<Half>) -> Reading {
        let read = clause.conditions.iter().map(|c| c.read(half));
        let (constant, stay): (Vec<_>, Vec<_>) = read.partition(Condition::is_constant);
        let holds = clause.has_both_signs() || constant.iter().any(Condition::holds_at_zero);
        Reading {
            half,
            conditions: (!holds).then(|| stay.iter().map(Condition::divided).collect()),
        }
    }

    /// How many pieces it has.
    pub fn pieces(&self) -> usize {
        match &self.conditions {
            Some(conditions) => conditions.len().max(1),
            None => 0,
        }
    }
}

impl Clause {
    /// Its readings in order: one, or two with an `=`.
    pub fn readings(&self) -> Vec<Reading> {
        let halves = match self.has_equality() {
            true => vec![Some(Half::AtMost), Some(Half::AtLeast)],
            false => vec![None],
        };
        let reading = |half| Reading::of(self, half);
        halves.into_iter().map(reading).collect()
    }

    /// The links that its readings take: each has one piece more than links, if it has any.
    pub fn links(&self) -> usize {
        let links = |reading: Reading| reading.pieces().saturating_sub(1);
        self.readings().into_iter().map(links).sum()
    }
}

impl Condition {
    /// With `<=` or `<`, in the reading that has this half of the clause's `=`.
    fn read(&self, half: Option<Half>) -> Condition {
        match (self.relation, half) {
            (Relation::AtMost | Relation::Below, _) => self.clone(),
            (Relation::AtLeast, _) | (Relation::Equal, Some(Half::AtLeast)) => self.turned(),
            (Relation::Equal, _) => Condition {
                relation: Relation::AtMost,
                ..self.clone()
            },
        }
    }

    /// At least its bound, as at most: all signs turned.
    fn turned(&self) -> Condition {
        Condition {
            relation: Relation::AtMost,
            coefficients: self.coefficients.iter().map(|amount| -amount).collect(),
            bound: -self.bound,
        }
    }

    /// Whether no figure is in it.
    fn is_constant(&self) -> bool {
        self.coefficients.iter().all(|&amount| amount == 0)
    }

    /// Whether it holds, as it is read, where all figures are 0.
    fn holds_at_zero(&self) -> bool {
        match self.relation {
            Relation::Below => 0 < self.bound,
            _ => 0 <= self.bound,
        }
    }

    /// Divided by the greatest common divisor of its coefficients, not all of them 0, and bound.
    fn divided(&self) -> Condition {
        let amounts = self.coefficients.iter().chain([&self.bound]);
        let divisor = amounts.fold(0, |divisor, &amount| gcd(divisor, amount.abs()));
        Condition {
            relation: self.relation,
            coefficients: self.coefficients.iter().map(|c| c / divisor).collect(),
            bound: self.bound / divisor,
        }
    }
}

/// Of two numbers that are not negative.
fn gcd(a: i32, b: i32) -> i32 {
    match b {
        0 => a,
        _ => gcd(b, a % b),
    }
}

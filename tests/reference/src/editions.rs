//! The two editions: 02's (v), "Second edition: shares are never negative". The caller names one, and
//! the second has clauses of its own behind those of the question.

use crate::problem::{Clause, Constraint, Fault, Literals, Problem, Relation, MAX_RATIONALS};

#[derive(Clone, Copy, Debug, PartialEq, Eq)]
pub enum Edition {
    First,
    Second,
}

impl Edition {
    /// The edition by its number; any other number is fault 19, which a call tests first.
    pub fn named(number: u64) -> Result<Edition, Fault> {
        match number {
            1 => Ok(Edition::First),
            2 => Ok(Edition::Second),
            _ => Err(Fault {
                number: 19,
                place: 0,
            }),
        }
    }

    /// The problem that an edition makes of a question read without fault: in the second, clauses n to
    /// n + r - 1 state that figure 0, 1 and so on is ≥ 0. They have no bytes, and so no place.
    pub fn state(self, mut problem: Problem) -> Problem {
        if self == Edition::Second {
            problem.clauses.extend((0..problem.rationals).map(share));
        }
        problem
    }
}

/// The clause that states that a figure is ≥ 0.
fn share(figure: usize) -> Clause {
    let mut coefficients = [0; MAX_RATIONALS];
    coefficients[figure] = 1;
    Clause {
        place: 0,
        literals: Literals::default(),
        constraints: vec![Constraint {
            relation: Relation::AtLeast,
            coefficients,
            bound: 0,
        }],
    }
}

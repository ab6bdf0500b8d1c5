//! 02's (xi): a problem reduced to some of its clauses, and the links that each clause takes, by which
//! the lines of a book name other marks then.

use crate::problem::{Problem, Term};

impl Problem {
    /// The same with these of its clauses alone.
    pub fn reduced(&self, clauses: &[usize]) -> Problem {
        Problem {
            clauses: clauses.iter().map(|&i| self.clauses[i].clone()).collect(),
            ..self.clone()
        }
    }

    /// How many links each clause takes, its readings together.
    pub fn links(&self) -> Vec<usize> {
        let of_clause = |clause: usize| {
            let readings = self.reduced(&[clause]).apart().clauses;
            readings.iter().map(|reading| links(reading)).sum()
        };
        (0..self.clauses.len()).map(of_clause).collect()
    }
}

/// Of a reading, with ≤ and < alone: one less than the conditions that tidying leaves, if it leaves it.
fn links(reading: &[Term]) -> usize {
    let holds_always = |term: &Term| match term {
        Term::Literal { boolean, negated } => reading.contains(&Term::Literal {
            boolean: *boolean,
            negated: !negated,
        }),
        Term::Constraint {
            relation, bound, ..
        } => term.is_constant() && *bound >= *relation as i32 - 1,
    };
    if reading.iter().any(holds_always) {
        return 0;
    }
    let left = reading.iter().filter(|term| !term.is_constant());
    let conditions = left.filter(|term| matches!(term, Term::Constraint { .. }));
    conditions.count().saturating_sub(1)
}

impl Term {
    /// Whether it is a condition without a figure.
    fn is_constant(&self) -> bool {
        match self {
            Term::Literal { .. } => false,
            Term::Constraint { coefficients, .. } => coefficients.iter().all(|&amount| amount == 0),
        }
    }
}

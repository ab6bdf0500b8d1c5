//! How a clause is read: as one, or as two if it has an =. 02's (i), "Equal and at least".

use crate::problem::{has_equal, Clause, Constraint, Relation, MAX_RATIONALS};

/// A condition as it is read: ≤, or < if it is strict.
#[derive(Clone, Copy, Debug, PartialEq, Eq)]
pub struct Inequality {
    pub strict: bool,
    pub coefficients: [i64; MAX_RATIONALS],
    pub bound: i64,
}

/// The conditions of each reading, the literals being the same in all: the = is ≤ in the first
/// reading, and ≥ in the second.
pub fn readings(clause: &Clause) -> Vec<Vec<Inequality>> {
    let constraints = &clause.constraints;
    let read = |equal| constraints.iter().map(|one| one.read(equal)).collect();
    let mut readings = vec![read(Relation::AtMost)];
    if has_equal(constraints) {
        readings.push(read(Relation::AtLeast));
    }
    readings
}

impl Constraint {
    /// The condition with all signs turned where it is ≥; an = is read as this relation.
    fn read(&self, equal: Relation) -> Inequality {
        let relation = match self.relation {
            Relation::Equal => equal,
            relation => relation,
        };
        let sign = match relation {
            Relation::AtLeast => -1,
            _ => 1,
        };
        Inequality {
            strict: relation == Relation::Below,
            coefficients: self.coefficients.map(|amount| sign * amount),
            bound: sign * self.bound,
        }
    }
}

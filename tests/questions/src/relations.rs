//! The same problem in other relations: without = and ≥, as 02's (i) reads them, and with them.

use crate::problem::{Problem, Relation, Term};

impl Problem {
    /// A clause with an = is two, first with ≤, then with ≥, and every ≥ is a ≤ with all signs turned.
    pub fn apart(&self) -> Problem {
        let mut clauses = Vec::new();
        for clause in &self.clauses {
            let read = |equal| clause.iter().map(|term| term.read(equal)).collect();
            clauses.push(read(Relation::AtMost));
            if clause.iter().any(Term::is_equal) {
                clauses.push(read(Relation::AtLeast));
            }
        }
        Problem {
            clauses,
            ..self.clone()
        }
    }

    /// The other way round, of a problem with ≤ and < alone: two clauses in a row that differ in one ≤,
    /// and there in all signs, are one with =, and a ≤ whose first coefficient is below 0 is a ≥.
    pub fn joined(&self) -> Problem {
        let mut clauses = Vec::new();
        let mut rest = &self.clauses[..];
        while let [first, behind @ ..] = rest {
            let one = behind.first().and_then(|second| join(first, second));
            rest = &behind[usize::from(one.is_some())..];
            let clause = one.unwrap_or_else(|| first.clone());
            clauses.push(clause.iter().map(Term::stated).collect());
        }
        Problem {
            clauses,
            ..self.clone()
        }
    }
}

/// The clause with = that is read as these two, if there is one.
fn join(first: &[Term], second: &[Term]) -> Option<Vec<Term>> {
    let differs = |&place: &usize| Some(&first[place]) != second.get(place);
    let mut places = (0..first.len()).filter(differs);
    let place = match (places.next(), places.next()) {
        (Some(place), None) if second.len() == first.len() => place,
        _ => return None,
    };
    let mut clause = first.to_vec();
    clause[place] = match &first[place] {
        term @ Term::Constraint {
            relation: Relation::AtMost,
            coefficients,
            bound,
        } if second[place] == term.turned(Relation::AtMost) => Term::Constraint {
            relation: Relation::Equal,
            coefficients: coefficients.clone(),
            bound: *bound,
        },
        _ => return None,
    };
    Some(clause)
}

/// The first coefficient that is not 0, if there is one.
fn first(coefficients: &[i32]) -> i32 {
    let mut others = coefficients.iter().filter(|&&amount| amount != 0);
    others.next().copied().unwrap_or(0)
}

impl Term {
    pub fn is_equal(&self) -> bool {
        let equal = Relation::Equal;
        matches!(self, Term::Constraint { relation, .. } if *relation == equal)
    }

    /// A condition with all signs turned, and this relation.
    fn turned(&self, relation: Relation) -> Term {
        match self {
            Term::Literal { .. } => self.clone(),
            Term::Constraint {
                coefficients,
                bound,
                ..
            } => Term::Constraint {
                relation,
                coefficients: coefficients.iter().map(|amount| -amount).collect(),
                bound: -bound,
            },
        }
    }

    /// As it is read where an = is this relation.
    fn read(&self, equal: Relation) -> Term {
        let mut term = self.clone();
        if let Term::Constraint { relation, .. } = &mut term {
            if *relation == Relation::Equal {
                *relation = equal;
            }
            if *relation == Relation::AtLeast {
                return term.turned(Relation::AtMost);
            }
        }
        term
    }

    /// A ≤ whose first coefficient is below 0 as ≥.
    fn stated(&self) -> Term {
        match self {
            Term::Constraint {
                relation: Relation::AtMost,
                coefficients,
                ..
            } if first(coefficients) < 0 => self.turned(Relation::AtLeast),
            _ => self.clone(),
        }
    }
}

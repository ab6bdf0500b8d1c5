//! Tidying a clause and splitting it into pieces by links: 01's "Tidying a clause", done with each
//! reading of a clause by 02's (i). The same tidying is applied to every result of the course.

use crate::problem::{Literals, Problem};
use crate::readings::{readings, Inequality};

/// A tidied clause, or reading of one; a dropped one is no clause at all.
pub struct Normal {
    pub literals: Literals,
    pub constraints: Vec<Inequality>,
}

impl Normal {
    /// How many links its splitting takes.
    pub fn links(&self) -> usize {
        self.constraints.len().saturating_sub(1)
    }
}

/// What a line says: literals and at most one condition. Two lines are equal if these are.
#[derive(Clone, Copy, Debug, PartialEq, Eq)]
pub struct Body {
    pub literals: Literals,
    pub constraint: Option<Inequality>,
}

/// 01's piece of a tidied clause, with the numbers of both; the clause's is that of the written one.
pub struct ClausePart {
    pub clause: u16,
    pub part: u16,
    pub body: Body,
}

/// A tidied condition: a constant that is true or false, or one divided by the greatest common
/// divisor of its amounts.
enum NormalConstraint {
    Always,
    Never,
    Sometimes(Inequality),
}

/// Tidies a clause; none if it is dropped.
pub fn normalize(literals: Literals, constraints: &[Inequality]) -> Option<Normal> {
    if literals.positive & literals.negative != 0 {
        return None;
    }
    let mut kept = Vec::with_capacity(constraints.len());
    for constraint in constraints {
        match normalize_constraint(constraint) {
            NormalConstraint::Always => return None,
            NormalConstraint::Never => {}
            NormalConstraint::Sometimes(constraint) => kept.push(constraint),
        }
    }
    Some(Normal {
        literals,
        constraints: kept,
    })
}

fn normalize_constraint(constraint: &Inequality) -> NormalConstraint {
    let divisor = constraint.coefficients.iter().copied().fold(0, gcd);
    if divisor == 0 {
        let holds = match constraint.strict {
            false => 0 <= constraint.bound,
            true => 0 < constraint.bound,
        };
        return match holds {
            true => NormalConstraint::Always,
            false => NormalConstraint::Never,
        };
    }
    let divisor = gcd(divisor, constraint.bound);
    NormalConstraint::Sometimes(Inequality {
        strict: constraint.strict,
        coefficients: constraint.coefficients.map(|amount| amount / divisor),
        bound: constraint.bound / divisor,
    })
}

/// The greatest common divisor, never negative; that of 0 and 0 is 0.
fn gcd(a: i64, b: i64) -> i64 {
    let (mut a, mut b) = (a.abs(), b.abs());
    while b != 0 {
        (a, b) = (b, a % b);
    }
    a
}

/// The pieces of all tidied clauses, in the order in which they load. Links are numbered from b
/// upward; a problem read without fault has at most 32 marks and links together. A clause's second
/// reading goes on with the numbers of its pieces and of the links.
pub fn split(problem: &Problem) -> Vec<ClausePart> {
    let mut parts = Vec::new();
    let mut link = usize::from(problem.booleans);
    for (clause, written) in (0..).zip(&problem.clauses) {
        let mut bodies = Vec::new();
        for constraints in readings(written) {
            if let Some(normal) = normalize(written.literals, &constraints) {
                bodies.extend(split_reading(&normal, link));
                link += normal.links();
            }
        }
        for (part, body) in (0..).zip(bodies) {
            parts.push(ClausePart { clause, part, body });
        }
    }
    parts
}

/// The pieces of one reading; its links are numbered from `link` upward.
fn split_reading(normal: &Normal, link: usize) -> Vec<Body> {
    let last = match normal.constraints.len().checked_sub(1) {
        Some(last) => last,
        None => {
            return vec![Body {
                literals: normal.literals,
                constraint: None,
            }]
        }
    };
    let piece = |(i, constraint): (usize, &Inequality)| {
        let mut literals = match i {
            0 => normal.literals,
            _ => Literals {
                positive: 0,
                negative: 1 << (link + i - 1),
            },
        };
        if i < last {
            literals.positive |= 1 << (link + i);
        }
        Body {
            literals,
            constraint: Some(*constraint),
        }
    };
    normal.constraints.iter().enumerate().map(piece).collect()
}

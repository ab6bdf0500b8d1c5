//! Random problems in which many marks are open, by 02's (iv), and others stand in one clause alone,
//! which may be one that tidying drops or an earlier line covers; and the marks of a problem given other
//! numbers.

use crate::problem::{constraint, no, yes, Problem, Relation, Term};
use crate::random::Random;

/// At most sixteen marks, mostly few, at most two figures and five clauses of few terms. Of the
/// conditions some are constants; one problem in five has large coefficients.
pub fn problem(random: &mut Random) -> Problem {
    let most = [16, 5, 5, 3][random.between(0, 3) as usize];
    let mut problem = Problem::new(random.between(0, most) as u8, random.between(0, 2) as u8);
    let large = random.once_in(5);
    for _ in 0..random.between(0, 5) {
        let terms = clause(random, &problem, large);
        problem.clauses.push(terms);
    }
    problem
}

/// At most two literals, now and then the last one once more, in either sign; and mostly one condition.
fn clause(random: &mut Random, problem: &Problem, large: bool) -> Vec<Term> {
    let mut terms = Vec::new();
    let literals = match problem.booleans {
        0 => 0,
        _ => random.between(0, 2),
    };
    for _ in 0..literals {
        let mark = random.between(0, i64::from(problem.booleans) - 1) as u8;
        terms.push(literal(random, mark));
        if random.once_in(4) {
            terms.push(literal(random, mark));
        }
    }
    let conditions = match random.between(0, 5) {
        0 => 2,
        1 | 2 if literals > 0 => 0,
        _ => 1,
    };
    for _ in 0..conditions {
        terms.push(condition(random, problem.rationals, large));
    }
    terms
}

fn literal(random: &mut Random, mark: u8) -> Term {
    match random.once_in(2) {
        true => yes(mark),
        false => no(mark),
    }
}

fn condition(random: &mut Random, rationals: u8, large: bool) -> Term {
    let mut coefficients: Vec<i32> = (0..rationals)
        .map(|_| random.between(-2, 2) as i32)
        .collect();
    if large {
        for coefficient in &mut coefficients {
            *coefficient *= 499_999_000 + random.between(0, 999) as i32;
        }
    }
    let relation = match random.once_in(3) {
        true => Relation::Below,
        false => Relation::AtMost,
    };
    constraint(relation, &coefficients, random.between(-3, 3) as i32)
}

impl Problem {
    /// The marks that stand in a clause have these numbers instead, in the same order, among so many
    /// marks.
    pub fn renumbered(&self, booleans: u8, numbers: &[u8]) -> Problem {
        let standing: Vec<u8> = (0..self.booleans)
            .filter(|mark| self.open() >> mark & 1 == 0)
            .collect();
        let renumber = |term: &Term| match term {
            Term::Literal { boolean, negated } => {
                let place = standing.iter().position(|mark| mark == boolean);
                Term::Literal {
                    boolean: numbers[place.expect("a mark of a literal stands in a clause")],
                    negated: *negated,
                }
            }
            condition => condition.clone(),
        };
        let clauses = self.clauses.iter();
        let clauses = clauses.map(|clause| clause.iter().map(renumber).collect());
        Problem {
            booleans,
            clauses: clauses.collect(),
            ..*self
        }
    }
}

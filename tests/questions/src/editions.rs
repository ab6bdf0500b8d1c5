//! 02's (v), shares that are never negative: a problem with the second edition's clauses written out,
//! and random problems in which these often decide.

use crate::problem::{at_least, constraint, no, yes, Problem, Relation, Term};
use crate::random::Random;

impl Problem {
    /// The same with a clause for each figure behind its own, which states that it is ≥ 0.
    pub fn with_shares(&self) -> Problem {
        let mut problem = self.clone();
        let figures = 0..usize::from(self.rationals);
        let shares = figures.map(|figure| vec![at_least(&unit(figure), 0)]);
        problem.clauses.extend(shares);
        problem
    }

    /// The same without the clauses that state as much of one figure, by ≤.
    pub fn without_shares(&self) -> Problem {
        let mut problem = self.clone();
        problem.clauses.retain(|clause| !is_share(clause));
        problem
    }
}

/// Whether a clause is -x ≤ 0, of any figure.
fn is_share(clause: &[Term]) -> bool {
    match clause {
        [Term::Constraint {
            relation: Relation::AtMost,
            coefficients,
            bound: 0,
        }] => {
            let mut there = coefficients.iter().filter(|&&amount| amount != 0);
            there.next() == Some(&-1) && there.next().is_none()
        }
        _ => false,
    }
}

/// The coefficients of this figure alone.
fn unit(figure: usize) -> Vec<i32> {
    let mut coefficients = vec![0; figure + 1];
    coefficients[figure] = 1;
    coefficients
}

/// Few marks and mostly few figures, now and then none or eight. One clause in two is about one figure,
/// most of these a lower bound about 0, which may cover the edition's clause, equal it or be weaker;
/// the others are sums whose bounds lie about 0, so that some need a negative figure.
pub fn problem(random: &mut Random) -> Problem {
    match random.once_in(5) {
        true => of_figures(random, 8),
        false => small(random),
    }
}

/// The same with at most three figures.
pub fn small(random: &mut Random) -> Problem {
    let most = [1, 2, 3, 3][random.between(0, 3) as usize];
    of_figures(random, most)
}

fn of_figures(random: &mut Random, most: i64) -> Problem {
    let mut problem = Problem::new(random.between(0, 2) as u8, random.between(0, most) as u8);
    for _ in 0..random.between(0, 3 + most) {
        let mut terms = Vec::new();
        if problem.booleans > 0 && random.once_in(3) {
            terms.push(literal(random, problem.booleans));
        }
        if terms.is_empty() || random.once_in(2) {
            terms.push(condition(random, problem.rationals));
        }
        if random.once_in(12) {
            terms.push(condition(random, problem.rationals));
        }
        problem.clauses.push(terms);
    }
    problem
}

fn literal(random: &mut Random, booleans: u8) -> Term {
    let mark = random.between(0, i64::from(booleans) - 1) as u8;
    match random.once_in(2) {
        true => no(mark),
        false => yes(mark),
    }
}

fn condition(random: &mut Random, rationals: u8) -> Term {
    if rationals == 0 {
        return constraint(relation(random), &[], random.between(-1, 1) as i32);
    }
    if random.once_in(2) {
        return of_one(random, rationals);
    }
    let coefficients: Vec<i32> = (0..rationals)
        .map(|_| random.between(-2, 2).min(random.between(0, 2)) as i32)
        .collect();
    let bound = match random.once_in(20) {
        true => random.between(-1_000_000_000, 1_000_000_000),
        false => random.between(-3, 4),
    };
    constraint(relation(random), &coefficients, bound as i32)
}

/// A multiple of one figure, with a bound about 0.
fn of_one(random: &mut Random, rationals: u8) -> Term {
    let figure = random.between(0, i64::from(rationals) - 1) as usize;
    let factor = [1, 1, 1, 2, 3, 999_999_999][random.between(0, 5) as usize];
    let row =
        |sign: i32| -> Vec<i32> { unit(figure).iter().map(|one| sign * factor * one).collect() };
    let bound = [0, 0, 0, 1, 3, -1][random.between(0, 5) as usize];
    match random.between(0, 8) {
        0..=2 => constraint(Relation::AtMost, &row(-1), -bound),
        3 | 4 => constraint(Relation::Below, &row(-1), -bound),
        5 | 6 => constraint(Relation::AtLeast, &row(1), bound),
        7 => constraint(Relation::Equal, &row(1), bound),
        _ => constraint(relation(random), &row(1), bound),
    }
}

fn relation(random: &mut Random) -> Relation {
    match random.between(0, 7) {
        0 => Relation::Equal,
        1 => Relation::AtLeast,
        2 | 3 => Relation::Below,
        _ => Relation::AtMost,
    }
}

//! Random problems of few rows of coefficients, with close bounds, both ≤ and <, and few literals,
//! so that an earlier line often covers a later one, by each part of 02's (viii), and often nearly.

use crate::problem::{at_most, below, no, yes, Problem, Term};
use crate::random::Random;

/// What the constraints of a problem have in common.
struct Shape {
    /// The rows, each there with all signs turned, too.
    rows: Vec<Vec<i32>>,
    /// A point about which the bounds lie, so that most problems have a model.
    point: Vec<i32>,
    /// Added to every bound.
    far: i32,
}

/// One problem in six is of marks alone, and one of all sixteen marks with figures.
pub fn problem(random: &mut Random) -> Problem {
    match random.between(0, 5) {
        0 => of_marks(random),
        1 => of_many_marks(random),
        _ => of_rows(random),
    }
}

/// Clauses of one to four literals in three to six marks.
fn of_marks(random: &mut Random) -> Problem {
    let mut problem = Problem::new(random.between(3, 6) as u8, 0);
    for _ in 0..random.between(4, 14) {
        let mut terms = literals(random, problem.booleans);
        terms.push(literal(random, problem.booleans));
        problem.clauses.push(terms);
    }
    problem
}

/// Sixteen marks and one to three figures; each clause has some of four literals, of one of three
/// choices.
fn of_many_marks(random: &mut Random) -> Problem {
    let mut problem = Problem::new(16, random.between(1, 3) as u8);
    let shape = shape(random, problem.rationals);
    let mut four = || (0..4).map(|_| literal(random, 16)).collect();
    let choices: [Vec<Term>; 3] = [four(), four(), four()];
    for _ in 0..random.between(4, 14) {
        let choice = &choices[random.between(0, 2) as usize];
        let mut terms = choice.clone();
        terms.retain(|_| random.once_in(2));
        for _ in 0..constraints(random, terms.len()) {
            terms.push(constraint(random, &shape));
        }
        problem.clauses.push(terms);
    }
    problem
}

/// At most four marks and one to three figures. In one of two the bounds fall, so that clauses
/// seldom cover later ones, and results do; one in thirty has bounds near their limit.
fn of_rows(random: &mut Random) -> Problem {
    let mut problem = Problem::new(random.between(0, 4) as u8, random.between(1, 3) as u8);
    let falling = random.once_in(2);
    let mut shape = shape(random, problem.rationals);
    let clauses = random.between(4, 20) as i32;
    for left in (0..clauses).rev() {
        let mut terms = literals(random, problem.booleans);
        for _ in 0..constraints(random, terms.len()) {
            terms.push(constraint(random, &shape));
        }
        problem.clauses.push(terms);
        shape.far -= i32::from(falling && left % 2 == 0);
    }
    problem
}

fn shape(random: &mut Random, rationals: u8) -> Shape {
    let mut rows = Vec::new();
    for _ in 0..random.between(1, 4) {
        let row = row(random, rationals);
        rows.push(row.iter().map(|amount| -amount).collect());
        rows.push(row);
    }
    let figure = |_| random.between(-3, 3) as i32;
    Shape {
        rows,
        point: (0..rationals).map(figure).collect(),
        far: match random.once_in(30) {
            true => 999_999_970,
            false => random.between(0, 9) as i32,
        },
    }
}

/// Coefficients of 1 and -1, one in three 0, but not all.
fn row(random: &mut Random, rationals: u8) -> Vec<i32> {
    let amount = |_| random.between(-1, 1) as i32;
    let mut row: Vec<i32> = (0..rationals).map(amount).collect();
    if row.iter().all(|&amount| amount == 0) {
        row[0] = 1;
    }
    row
}

/// At most three literals, few more often.
fn literals(random: &mut Random, booleans: u8) -> Vec<Term> {
    let count = match booleans {
        0 => 0,
        _ => random.between(0, 3).min(random.between(0, 3)),
    };
    (0..count).map(|_| literal(random, booleans)).collect()
}

fn literal(random: &mut Random, booleans: u8) -> Term {
    let mark = random.between(0, i64::from(booleans) - 1) as u8;
    match random.once_in(2) {
        true => no(mark),
        false => yes(mark),
    }
}

/// Mostly one; none or two now and then, none only where there is a literal.
fn constraints(random: &mut Random, literals: usize) -> i64 {
    match random.between(0, 11) {
        0..=3 if literals > 0 => 0,
        4 => 2,
        _ => 1,
    }
}

/// One of the rows, once in eight twice as large; a bound that the point keeps or misses by little.
fn constraint(random: &mut Random, shape: &Shape) -> Term {
    let row = &shape.rows[random.between(0, shape.rows.len() as i64 - 1) as usize];
    let factor = 1 + i32::from(random.once_in(8));
    let coefficients: Vec<i32> = row.iter().map(|amount| factor * amount).collect();
    let terms = coefficients.iter().zip(&shape.point);
    let value: i32 = terms.map(|(amount, figure)| amount * figure).sum();
    let constraint = if random.once_in(2) { below } else { at_most };
    let bound = value + random.between(-1, 3) as i32 + shape.far;
    constraint(&coefficients, bound)
}

//! Questions as long as they may be, the one with the largest run known, one at the limit of lines,
//! and one that loads the most. The long ones have 256 clauses of three constraints in eight figures,
//! and take no link, since no clause keeps two constraints.

use crate::problem::{at_most, constraint, equal, no, yes, Problem, Relation, Term};

/// Why the constraints of a clause take no link.
#[derive(Clone, Copy, Debug)]
pub enum Kind {
    /// A mark stands there in both signs, and the clause is dropped.
    Dropped,
    /// Two of the three have no coefficient and are false, and are struck out.
    Struck,
    /// The same with = and ≥ among the three.
    Equal,
    /// The same with a second = as the last condition of all, which is refused.
    Doubled,
}

const CLAUSES: i32 = 256;

/// A question of so many bytes, which the literals of its last clause make up; from 32,757 on.
pub fn question(length: usize, kind: Kind) -> Vec<u8> {
    let mut problem = Problem::new(16, 8);
    for i in 1..CLAUSES {
        problem.clauses.push(clause(i, 15, kind));
    }
    problem.clauses.push(clause(CLAUSES, 0, kind));
    let literals = length - problem.encode().len();
    let last = problem.clauses.len() - 1;
    problem.clauses[last] = clause(CLAUSES, literals, kind);
    problem.encode()
}

/// The largest run known: x + 100m·y ≤ 1 for m = ±1 .. ±12 and for one more where it is given,
/// -x + j·y ≤ 0 for j = ±1 .. ±20.
pub fn run(more: Option<i32>) -> Problem {
    let both = |most: i32| (1..=most).flat_map(|i| [i, -i]);
    let uppers = both(12).chain(more).map(|m| at_most(&[1, 100 * m], 1));
    let lowers = both(20).map(|j| at_most(&[-1, j], 0));
    uppers
        .chain(lowers)
        .fold(Problem::new(0, 2), |problem, term| problem.clause([term]))
}

/// As many lines loaded as there can be, 528: 256 clauses with =, each of one way of eight marks, eight
/// of them with a second condition, which takes a link in either reading. A pair of figure 0 says
/// something always true, or has a mark in both signs.
pub fn loaded() -> Problem {
    let mut problem = Problem::new(8, 2);
    for i in 0..CLAUSES {
        let literal = |mark: u8| {
            if i >> mark & 1 == 0 {
                yes(mark)
            } else {
                no(mark)
            }
        };
        let mut clause: Vec<Term> = (0..8).map(literal).collect();
        clause.push(equal(&[1], i));
        if i < 8 {
            clause.push(at_most(&[0, 1], i));
        }
        problem.clauses.push(clause);
    }
    problem
}

/// x + y ≤ 100i for i from the count of uppers down to 1, -y ≤ -j for j from 0 to 39, -x ≤ 1,000
/// less k for k from 0 to 40. y costs less than x and goes first, and then 23 uppers take all 1,024
/// lines, and 24 need a line more; in rising order 23 need one more already. No clause or result is
/// weaker than an earlier one.
pub fn limit(uppers: i32) -> Problem {
    crossed(uppers, (-39..=0).rev(), (960..=1_000).rev())
}

/// x + y ≤ 100i for i from the count of uppers down to 1, -y ≤ each bound of y, -x ≤ each bound of x.
/// With more bounds of x, y goes first; and with falling bounds, those of y over less than 100, every
/// clause and every pair of y is a line.
pub fn crossed(
    uppers: i32,
    of_y: impl Iterator<Item = i32>,
    of_x: impl Iterator<Item = i32>,
) -> Problem {
    let uppers = (1..=uppers).rev().map(|i| at_most(&[1, 1], 100 * i));
    let of_y = of_y.map(|bound| at_most(&[0, -1], bound));
    let of_x = of_x.map(|bound| at_most(&[-1], bound));
    uppers
        .chain(of_y)
        .chain(of_x)
        .fold(Problem::new(0, 2), |problem, term| problem.clause([term]))
}

/// x + k·y ≤ 0 for k from 1 to the count: every clause is a line, and there are no pairs.
pub fn uppers(count: i32) -> Problem {
    (1..=count).fold(Problem::new(0, 2), |problem, k| {
        problem.clause([at_most(&[1, k], 0)])
    })
}

/// x + k·y = 0 for k from 1 to the count: every clause is two lines.
pub fn equalities(count: i32) -> Problem {
    (1..=count).fold(Problem::new(0, 2), |problem, k| {
        problem.clause([equal(&[1, k], 0)])
    })
}

fn clause(i: i32, literals: usize, kind: Kind) -> Vec<Term> {
    let mut terms: Vec<Term> = (1..literals).map(|mark| yes(mark as u8)).collect();
    if literals > 0 {
        terms.push(match kind {
            Kind::Dropped => no(1),
            _ => no(0),
        });
    }
    for j in 0..3 {
        let relation = match (kind, j) {
            (Kind::Equal | Kind::Doubled, 0) => Relation::Equal,
            (Kind::Equal | Kind::Doubled, 1) => Relation::AtLeast,
            (Kind::Doubled, _) if i == CLAUSES => Relation::Equal,
            _ if i % 2 == 0 => Relation::AtMost,
            _ => Relation::Below,
        };
        terms.push(match (kind, j, relation) {
            (Kind::Dropped, ..) | (_, 0, _) => constraint(relation, &coefficients(i + j), i),
            (_, _, Relation::AtLeast) => constraint(relation, &[], i),
            _ => constraint(relation, &[], -i),
        });
    }
    terms
}

/// Eight amounts up to 1,000,000,000 in size, of either sign.
fn coefficients(i: i32) -> [i32; 8] {
    std::array::from_fn(|f| (i - 129) * 7_000_003 + f as i32 * 12_000_007)
}

//! Diamonds: a chain of figures, in which every way from one to the next takes a mark's yes or no, so
//! that the ways through the chain multiply. What is left of the course's lines is one for each way.

use crate::problem::{at_most, no, yes, Problem, Term};

/// How a figure can be passed: the literals of each way. Whatever the marks are, one way has none
/// that holds.
#[derive(Clone, Copy, Debug)]
pub enum Ways {
    /// One mark: it is no, it is yes.
    Two,
    /// Two marks: the first is no, the second is no, both are yes.
    Three,
    /// Two marks: each choice of both.
    Four,
}

impl Ways {
    fn marks(self) -> u8 {
        match self {
            Ways::Two => 1,
            Ways::Three | Ways::Four => 2,
        }
    }

    fn literals(self, first: u8) -> Vec<Vec<Term>> {
        let second = first + 1;
        match self {
            Ways::Two => vec![vec![yes(first)], vec![no(first)]],
            Ways::Three => vec![
                vec![yes(first)],
                vec![yes(second)],
                vec![no(first), no(second)],
            ],
            Ways::Four => vec![
                vec![yes(first), yes(second)],
                vec![yes(first), no(second)],
                vec![no(first), yes(second)],
                vec![no(first), no(second)],
            ],
        }
    }
}

/// So many diamonds, at most seven: each figure is at least 1 more than the one before, in every way;
/// and the last is at most so much more than the first. It can agree from their count on.
pub fn diamonds(count: u8, ways: Ways, most: i32) -> Problem {
    let mut problem = Problem::new(count * ways.marks(), count + 1);
    for i in 0..count {
        for mut clause in ways.literals(i * ways.marks()) {
            clause.push(difference(i, i + 1, -1));
            problem.clauses.push(clause);
        }
    }
    problem.clause([difference(count, 0, most)])
}

/// The one figure less the other is at most the bound.
fn difference(one: u8, other: u8, bound: i32) -> Term {
    let mut coefficients = [0; 8];
    coefficients[usize::from(one)] = 1;
    coefficients[usize::from(other)] = -1;
    at_most(&coefficients, bound)
}

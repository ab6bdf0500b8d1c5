//! Questions of all sixteen marks, and no figure.

use crate::problem::{no, yes, Problem, Term};
use crate::random::Random;

pub const MARKS: u8 = 16;

/// So many clauses of three literals, each of three different marks.
pub fn clauses(random: &mut Random, count: usize) -> Problem {
    let mut problem = Problem::new(MARKS, 0);
    problem.clauses = (0..count).map(|_| clause(random)).collect();
    problem
}

/// Mark 0 with eleven pairs of marks 1 to 7, its negation with twenty pairs of marks 8 to 14, and so
/// many threes of these: 31 clauses and those, and 220 results by mark 0. Mark 15 is in none.
pub fn crossed(threes: usize) -> Problem {
    let pairs = |marks: std::ops::Range<u8>| {
        let last = marks.end;
        marks.flat_map(move |first| (first + 1..last).map(move |second| (first, second)))
    };
    let mut problem = Problem::new(MARKS, 0);
    let clauses = &mut problem.clauses;
    for (first, second) in pairs(1..8).take(11) {
        clauses.push(vec![yes(0), yes(first), yes(second)]);
    }
    for (first, second) in pairs(8..15).take(20) {
        clauses.push(vec![no(0), yes(first), yes(second)]);
    }
    for (first, second) in pairs(9..15).take(threes) {
        clauses.push(vec![yes(8), yes(first), yes(second)]);
    }
    problem
}

fn clause(random: &mut Random) -> Vec<Term> {
    let mut others: Vec<u8> = (0..MARKS).collect();
    let mut literal = |_| {
        let mark = others.remove(random.between(0, others.len() as i64 - 1) as usize);
        match random.once_in(2) {
            true => yes(mark),
            false => no(mark),
        }
    };
    (0..3).map(&mut literal).collect()
}

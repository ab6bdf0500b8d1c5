//! A small generator of numbers (splitmix64) with a fixed seed, and random problems drawn from
//! it.

use crate::problem::{at_most, below, Problem, Relation, Term};

pub struct Random(u64);

impl Random {
    pub fn new(seed: u64) -> Random {
        Random(seed)
    }

    pub fn word(&mut self) -> u64 {
        self.0 = self.0.wrapping_add(0x9e37_79b9_7f4a_7c15);
        let mixed = (self.0 ^ (self.0 >> 30)).wrapping_mul(0xbf58_476d_1ce4_e5b9);
        let mixed = (mixed ^ (mixed >> 27)).wrapping_mul(0x94d0_49bb_1331_11eb);
        mixed ^ (mixed >> 31)
    }

    /// A number from the first to the last, both included.
    pub fn between(&mut self, first: i64, last: i64) -> i64 {
        let count = (last - first + 1) as u64;
        first + (self.word() % count) as i64
    }

    /// True once in so many times.
    pub fn once_in(&mut self, times: i64) -> bool {
        self.between(1, times) == 1
    }

    /// A problem drawn so, in three of four cases with all relations: one condition in four is =, but
    /// no second one of a clause, and one in four is ≥.
    pub fn stated(&mut self, draw: impl FnOnce(&mut Random) -> Problem) -> Problem {
        let mut problem = draw(self);
        if self.once_in(4) {
            return problem;
        }
        for clause in &mut problem.clauses {
            let mut has_equal = false;
            for relation in relations(clause) {
                match self.between(0, 3) {
                    0 if !has_equal => {
                        *relation = Relation::Equal;
                        has_equal = true;
                    }
                    1 => *relation = Relation::AtLeast,
                    _ => (),
                }
            }
        }
        problem
    }

    /// The same problem, once in so many times with two = in one of the clauses that have two
    /// conditions, if one has.
    pub fn doubled(&mut self, times: i64, mut problem: Problem) -> Problem {
        if !self.once_in(times) {
            return problem;
        }
        let clauses = problem.clauses.iter_mut();
        let several = clauses.filter_map(|clause| {
            let relations: Vec<&mut Relation> = relations(clause).collect();
            (relations.len() >= 2).then_some(relations)
        });
        let mut several: Vec<Vec<&mut Relation>> = several.collect();
        if let Some(last) = several.len().checked_sub(1) {
            let mut clause = several.remove(self.between(0, last as i64) as usize);
            for _ in 0..2 {
                let place = self.between(0, clause.len() as i64 - 1) as usize;
                *clause.remove(place) = Relation::Equal;
            }
        }
        problem
    }

    /// A problem of at most three marks and three figures; one in eight has large amounts.
    pub fn problem(&mut self) -> Problem {
        let mut problem = Problem::new(self.between(0, 3) as u8, self.between(0, 3) as u8);
        let size = match self.between(0, 15) {
            0 => 40_000,
            1 => 1_000_000_000,
            _ => 3,
        };
        for _ in 0..self.between(0, 9) {
            let terms = self.clause(&problem, size);
            problem.clauses.push(terms);
        }
        problem
    }

    /// A problem of two to eight figures and at most four marks, each constraint with at most three of
    /// the figures; one in ten has more clauses than twenty.
    pub fn sparse_problem(&mut self) -> Problem {
        let mut problem = Problem::new(self.between(0, 4) as u8, self.between(2, 8) as u8);
        let size = match self.between(0, 7) {
            0 => 30_000,
            1 => 1_000,
            _ => 3,
        };
        let clauses = match self.once_in(10) {
            true => self.between(21, 40),
            false => self.between(4, 20),
        };
        for _ in 0..clauses {
            let mut terms = Vec::new();
            if problem.booleans > 0 && self.once_in(3) {
                terms.push(self.literal(problem.booleans));
            }
            for _ in 0..1 + i64::from(self.once_in(12)) {
                terms.push(self.sparse_constraint(problem.rationals, size));
            }
            problem.clauses.push(terms);
        }
        problem
    }

    fn sparse_constraint(&mut self, rationals: u8, size: i64) -> Term {
        let mut coefficients = vec![0; usize::from(rationals)];
        for _ in 0..self.between(1, 3) {
            let place = self.between(0, i64::from(rationals) - 1) as usize;
            coefficients[place] = self.between(-size, size) as i32;
        }
        let constraint = if self.once_in(4) { below } else { at_most };
        constraint(&coefficients, self.between(-2 * size, 4 * size) as i32)
    }

    /// A problem up to every limit but for its number of clauses, which is at most this; one amount
    /// in four is at its limit, and one constraint in twelve has no coefficient.
    pub fn dense_problem(&mut self, clauses: i64) -> Problem {
        let mut problem = Problem::new(self.between(0, 16) as u8, self.between(0, 8) as u8);
        for _ in 0..self.between(0, clauses) {
            let literals = match (problem.booleans, self.once_in(4)) {
                (0, _) => 0,
                (_, true) => self.between(0, 32),
                (_, false) => self.between(0, 2),
            };
            let constraints = self.between(0, 8).min(self.between(0, 8));
            let mut terms = Vec::new();
            for _ in 0..literals {
                terms.push(self.literal(problem.booleans));
            }
            for _ in 0..constraints {
                terms.push(self.dense_constraint(problem.rationals));
            }
            problem.clauses.push(terms);
        }
        problem
    }

    fn dense_constraint(&mut self, rationals: u8) -> Term {
        let limit = 1_000_000_000;
        let none = self.once_in(12);
        let mut amount = |none: bool| match self.between(0, 7) {
            _ if none => 0,
            0 => limit,
            1 => -limit,
            2..=4 => self.between(-3, 3) as i32,
            _ => self.between(-i64::from(limit), i64::from(limit)) as i32,
        };
        let coefficients: Vec<i32> = (0..rationals).map(|_| amount(none)).collect();
        let bound = amount(false);
        let constraint = if self.once_in(2) { below } else { at_most };
        constraint(&coefficients, bound)
    }

    /// A clause of at most three literals and three constraints, mostly short.
    fn clause(&mut self, problem: &Problem, size: i64) -> Vec<Term> {
        let literals = match problem.booleans {
            0 => 0,
            _ => self.between(0, 3).min(self.between(0, 3)),
        };
        let constraints = self.between(0, 3).min(self.between(0, 3));
        let constraints = constraints.max(i64::from(literals == 0 && !self.once_in(40)));
        let mut terms = Vec::new();
        for _ in 0..literals {
            terms.push(self.literal(problem.booleans));
        }
        for _ in 0..constraints {
            terms.push(self.constraint(problem.rationals, size));
        }
        terms
    }

    fn literal(&mut self, booleans: u8) -> Term {
        Term::Literal {
            boolean: self.between(0, i64::from(booleans) - 1) as u8,
            negated: self.once_in(2),
        }
    }

    /// Coefficients up to the size, one in three 0; a bound up to twice the size.
    fn constraint(&mut self, rationals: u8, size: i64) -> Term {
        let limit = 1_000_000_000;
        let mut coefficient = || match self.once_in(3) {
            true => 0,
            false => self.between(-size, size) as i32,
        };
        let coefficients: Vec<i32> = (0..rationals).map(|_| coefficient()).collect();
        let bound = self.between(-2 * size, 2 * size).clamp(-limit, limit);
        let constraint = if self.once_in(3) { below } else { at_most };
        constraint(&coefficients, bound as i32)
    }
}

/// The relations of a clause's conditions.
fn relations(clause: &mut [Term]) -> impl Iterator<Item = &mut Relation> {
    clause.iter_mut().filter_map(|term| match term {
        Term::Constraint { relation, .. } => Some(relation),
        Term::Literal { .. } => None,
    })
}

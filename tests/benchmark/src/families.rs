//! Families of questions: at random, and batches.

use questions::batches::{loose, natural, richer};
use questions::marks::clauses;
use questions::problem::{at_most, below, no, yes, Problem};
use questions::random::Random;

/// Draws a question.
type Draw = fn(&mut Random) -> Problem;

/// The seed of each family.
pub const SEED: u64 = 2;

/// The families by their names.
pub const FAMILIES: [(&str, Draw); 12] = [
    ("at random, small", Random::problem),
    ("at random, dense", |random| rows(random, 4, 1, 12)),
    ("at random, eight figures", |random| rows(random, 8, 4, 24)),
    ("at random, sixteen marks", |random| clauses(random, 69)),
    ("natural batches of 2 x 3", |random| natural(random, 2, 3)),
    ("natural batches of 2 x 4", |random| natural(random, 2, 4)),
    ("natural batches of 4 x 2", |random| natural(random, 4, 2)),
    ("natural batches of 2 x 4, with =", |random| {
        natural(random, 2, 4).joined()
    }),
    ("richer batches", richer),
    ("loose batches of 2 x 2", |random| loose(random, 2, 2)),
    ("loose batches of 2 x 3", |random| loose(random, 2, 3)),
    ("loose batches of 2 x 4", |random| loose(random, 2, 4)),
];

/// So many clauses of one condition that each figure is in once in so many times; one clause in
/// three has a literal beside it.
fn rows(random: &mut Random, figures: u8, once_in: i64, clauses: usize) -> Problem {
    let mut problem = Problem::new(4, figures);
    for _ in 0..clauses {
        let mut coefficient = || match random.once_in(once_in) {
            true => random.between(-3, 3) as i32,
            false => 0,
        };
        let coefficients: Vec<i32> = (0..figures).map(|_| coefficient()).collect();
        let constraint = if random.once_in(4) { below } else { at_most };
        let mut clause = vec![constraint(&coefficients, random.between(-10, 20) as i32)];
        if random.once_in(3) {
            let literal = if random.once_in(2) { yes } else { no };
            clause.push(literal(random.between(0, 3) as u8));
        }
        problem.clauses.push(clause);
    }
    problem
}

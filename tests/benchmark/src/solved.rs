//! The questions that solving is timed on.

use questions::diamonds::{diamonds, Ways};
use questions::largest;
use questions::problem::{at_most, yes, Problem};
use questions::random::Random;

const SEED: u64 = 8;

pub fn questions() -> Vec<(&'static str, Problem)> {
    let payment = Problem::new(0, 2)
        .clause([at_most(&[1, 1], 10)])
        .clause([at_most(&[-1], -7)])
        .clause([at_most(&[0, -1], -4)]);
    vec![
        ("small", payment),
        ("medium", rows(30)),
        ("large", rows(256)),
        ("largest run", largest::run(None)),
        ("equal results", equal_results()),
        ("Fibonacci", fibonacci()),
        ("five diamonds", diamonds(5, Ways::Three, 4)),
        ("six diamonds", diamonds(6, Ways::Three, 5)),
    ]
}

/// So many clauses of one constraint in four figures, in groups that share a figure.
fn rows(clauses: i32) -> Problem {
    let mut random = Random::new(SEED);
    let mut problem = Problem::new(4, 8);
    for i in 0..clauses {
        let mut coefficients = [0; 8];
        coefficients[(i % 8) as usize] = if i % 16 < 8 { 1 } else { -1 };
        coefficients[((i + 3) % 8) as usize] = random.between(-3, 3) as i32;
        let bound = random.between(0, 500) as i32;
        let constraint = at_most(&coefficients, bound);
        problem.clauses.push(match i % 5 {
            0 => vec![yes((i % 4) as u8), constraint],
            _ => vec![constraint],
        });
    }
    problem
}

/// Some 208,000 results that equal a line late in the book: the constants of y's turn are false and
/// struck out, and what is left is the literal of the uppers, which the first of them adds.
fn equal_results() -> Problem {
    let both = |most: i32| (1..=most).flat_map(|i| [i, -i]);
    let mut problem = Problem::new(1, 2);
    for m in both(12) {
        problem = problem.clause([yes(0), at_most(&[1, 100 * m], -1)]);
    }
    for j in both(19) {
        problem = problem.clause([at_most(&[-1, j], 0)]);
    }
    problem
}

/// Coefficients that Euclid's algorithm takes longest for.
fn fibonacci() -> Problem {
    let mut numbers = vec![1_i32, 2];
    while let [.., a, b] = numbers[..] {
        match a + b {
            next if next <= 1_000 => numbers.push(next),
            _ => break,
        }
    }
    let mut problem = Problem::new(0, 3);
    for pair in numbers.windows(2) {
        problem = problem
            .clause([at_most(&[pair[0], pair[1], 1], pair[1])])
            .clause([at_most(&[-pair[1], pair[0], 1], pair[0])]);
    }
    problem
}
